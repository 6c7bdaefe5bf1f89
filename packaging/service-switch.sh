# The switch of a service that follows its ticket, for the shell: systemd timers that run `follow-service .. switch`,
# which kills the service before the lease ends. follow-service sets the variables that are used here, and then reads
# this file.
# shellcheck shell=sh disable=SC2034,SC2154 # (follow-service sets the variables that this file uses)

limited() {
  timeout -s KILL "$@" 9>&-
}

# Sets `prefix` to the beginning of the names of this ticket's timers. (A hyphen in a ticket's name is escaped, so the
# timers of no other ticket begin with it.)
name_timers() {
  [ -z "${prefix:-}" ] || return 0
  case $ticket in
    *[!A-Za-z0-9:_.]*) prefix=booth-end-$(limited "$CALL_LIMIT" systemd-escape -- "$ticket")- || return 1 ;;
    *) prefix=booth-end-$ticket- ;;
  esac
}

# Prints the names of the timers that are armed for this ticket.
armed_timers() {
  name_timers || return 1
  limited "$CALL_LIMIT" systemctl list-units --all --full --plain --no-legend --no-pager 'booth-end-*.timer' |
    while read -r unit _ active _; do
      case $unit in "$prefix"[0-9]*.timer) [ "$active" != active ] || printf '%s\n' "$unit" ;; esac
    done
}

# Removes the timers that are listed on standard input.
disarm() {
  while read -r unit; do
    [ -z "$unit" ] || limited "$CALL_LIMIT" systemctl stop "$unit" || say 4 "cannot remove the timer $unit"
  done
}

# Sets `monotonic` to the clock of systemd's timers, in milliseconds. Unlike the time since the boot, it stands still
# while the machine sleeps. If the system does not show this clock, the machine is assumed never to have slept.
look_at_monotonic() {
  look_at_clock
  monotonic=$((now * 10)) told=''
  if [ -r /proc/timer_list ]; then
    { read -r _ && read -r _ && read -r _ _ told _; } 2>/dev/null </proc/timer_list
  fi
  ! is_number "$told" || monotonic=$((told / 1000000))
}

# Sets `up_since` to the start of systemd, in microseconds of that clock. It is read once in a boot.
look_at_systemd() {
  up_since=''
  if [ -r "$run/.up_since" ]; then
    read -r up_since <"$run/.up_since"
  fi
  if ! is_number "$up_since"; then
    up_since=$(limited "$CALL_LIMIT" systemctl show --property=UserspaceTimestampMonotonic --value)
    is_number "$up_since" && echo "$up_since" | put "$run/.up_since"
  fi
}

# Arms a timer of this name, which runs the switch after this many milliseconds. The timer has a time from now and times
# from the start of systemd, because a daemon-reload restarts the time from now. The later times are for the case that
# the first one falls into a reload and is lost.
arm() {
  name=$1 after=$2
  shift 2
  look_at_systemd || return 1
  at=$((monotonic - up_since / 1000 + after))
  limited "$CALL_LIMIT" systemd-run --quiet --collect --unit="$name" --timer-property=AccuracySec=100ms \
    --on-active="${after}ms" --on-startup="${at}ms" --on-startup="$((at + 500))ms" --on-startup="$((at + 2000))ms" \
    --description="Kills the service of ticket $ticket before the lease ends" \
    --property=OOMScoreAdjust=-900 --property=CPUWeight=1000 \
    --property="EnvironmentFile=-/etc/booth/follow/$ticket.env" \
    --setenv=BOOTH_TICKET="$BOOTH_TICKET" --setenv=BOOTH_LOCAL="$BOOTH_LOCAL" \
    --setenv=BOOTH_CONF_PATH="$BOOTH_CONF_PATH" --setenv=BOOTH_CONF_NAME="$BOOTH_CONF_NAME" \
    ${BOOTH_FOLLOW_RUN:+--setenv=BOOTH_FOLLOW_RUN="$run"} \
    -- "$self" "$ticket" "$@" switch "$BOOTH_TICKET_EXPIRES" </dev/null
}

# Sets `armed` to the end in the file, or to 0 if there is none.
look_at_end() {
  armed=0
  if [ -r "$end" ] && read -r line <"$end" && is_number "$line"; then armed=$line; fi
}

# Succeeds if there is a timer for the end in the file. (A renewal at the same time may replace the end.)
is_armed() {
  look_at_end
  while [ "$armed" -gt 0 ]; do
    case $(armed_timers) in *"-$armed-"*) return 0 ;; esac
    former=$armed
    look_at_end
    [ "$armed" -ne "$former" ] || return 1
  done
  return 1
}
