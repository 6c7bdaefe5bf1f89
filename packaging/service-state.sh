# The state of a service that follows its ticket, for the shell: follow-service, booth-service and handler-follow set
# `ticket` and then read this file. booth-follow(8) lists the files and keys. Times are in hundredths of a second since
# the boot.
#
# BOOTH_FOLLOW_RUN names another folder than /run/booth-follow, for tests. Root's runs read it too. This is safe, as for
# PATH: nothing runs one of these programs with more rights than its caller has.
# shellcheck shell=sh disable=SC2034,SC2154 # (the program that reads this file sets `ticket`, and uses the variables)
run=${BOOTH_FOLLOW_RUN:-/run/booth-follow}
state=$run/$ticket.state end=$run/$ticket.end paused=$run/$ticket.paused

# Succeeds if files of the folder can have the ticket's name.
has_file_name() {
  case $ticket in '' | .* | */*) return 1 ;; esac
}

# Succeeds for a whole number without leading zeros, since the shell reads a number that begins with 0 as octal.
is_number() {
  case $1 in '' | *[!0-9]* | 0?* | ???????????????????*) return 1 ;; esac
}

# Sets `result` to a number of seconds in hundredths, or to 0 if the text is not a number.
hundredths() {
  case $1 in *.[0-9][0-9]) part=${1#*.} ;; *) part=00 ;; esac
  result=0
  ! is_number "${1%.*}" || result=$((${1%.*} * 100 + 1$part - 100))
}

# Prints hundredths of a second as seconds.
seconds() {
  printf '%d.%02d' $(($1 / 100)) $(($1 % 100))
}

# Sets `now` to the time since the boot.
look_at_clock() {
  read -r up _ </proc/uptime
  hundredths "$up"
  now=$result
}

# Reads the state of this boot. There is none before the first run.
load() {
  service=stopped since=0 ends=0 end_at=0 kill_at=0 failed_starts=0 failed_until=0 releases=0
  last_word='' last_status=''
  [ -r "$state" ] || return 0
  while IFS='=' read -r key value; do
    case $key in
      service) service=$value ;;
      word) last_word=$value ;;
      status) last_status=$value ;;
      ends | failed_starts | releases) ! is_number "$value" || eval "$key=\$value" ;;
      since | end_at | kill_at | failed_until)
        hundredths "$value"
        eval "$key=\$result"
        ;;
    esac
  done <"$state"
}

# Replaces a file by standard input: writes a new file and renames it.
put() {
  new=$run/.$ticket.new.$$
  cat >"$new" && mv -f "$new" "$1" && return
  rm -f "$new"
  return 1
}

# Writes the state.
save() {
  put "$state" <<END
service=$service
since=$(seconds "$since")
ends=$ends
end_at=$(seconds "$end_at")
kill_at=$(seconds "$kill_at")
failed_starts=$failed_starts
failed_until=$(seconds "$failed_until")
releases=$releases
word=$last_word
status=$last_status
END
}

# Changes the state with a function, under a lock, since a renewal runs at the same time as a start or a stop. It waits
# at most 3 seconds for the lock, so that a run that hangs does not delay the end of a service.
change() {
  {
    flock -w 3 9
    load
    "$@"
    save
  } 9>>"$run/.$ticket.lock"
}

# Sets the state of the service, which begins now.
become() {
  [ "$service" != "$1" ] || return 0
  look_at_clock
  service=$1 since=$now
}
