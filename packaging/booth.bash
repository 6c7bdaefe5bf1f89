# Completion in bash for boothd, booth, geostore, booth-follow, booth-status, booth-record, booth-service, booth-setup,
# booth-switchover, booth-pacemaker and booth-lease-guard.

# prints the path of the configuration that -c names on this command line
_booth_conf() {
  local i conf=booth
  for ((i = 1; i < ${#words[@]} - 1; i++)); do
    [[ ${words[i]} == -c || ${words[i]} == --conf ]] && conf=${words[i + 1]}
  done
  [[ $conf == */* ]] || conf=/etc/booth/${conf%.conf}.conf
  printf '%s\n' "$conf"
}

# prints the values of these keys in the configuration, without quotes and comments
_booth_values() {
  local line key value keys=" $* "
  while IFS= read -r line; do
    [[ $line =~ ^[[:blank:]]*([a-z-]+)[[:blank:]]*=[[:blank:]]*(\"([^\"]*)\"|\'([^\']*)\'|([^[:blank:]]*)) ]] || continue
    key=${BASH_REMATCH[1]}
    value=${BASH_REMATCH[3]}${BASH_REMATCH[4]}${BASH_REMATCH[5]}
    [[ $keys == *" $key "* && $value != __default__ ]] && printf '%s\n' "$value"
  done 2>/dev/null <"$(_booth_conf)"
}

# Offers the lines of a list that begin with the word, quoted for the shell. The lines come from a file, so the shell
# must not expand them: not here, as compgen -W would, and not later on the command line.
_booth_reply() {
  local each
  COMPREPLY=()
  while IFS= read -r each; do
    [[ -n $each && $each == "$2"* ]] || continue
    printf -v each %q "$each"
    COMPREPLY+=("$each")
  done <<<"$1"
}

# offers the files and directories that begin with the word, with a slash after a directory
_booth_files() {
  local each slash
  while IFS= read -r each; do
    slash=
    [[ -d $each ]] && slash=/
    printf -v each %q "$each"
    COMPREPLY+=("$each$slash")
  done < <(compgen "$@")
}

# offers the names of the configurations in /etc/booth, and files and directories
_booth_configurations() {
  local names
  names=$(cd /etc/booth 2>/dev/null && for f in *.conf; do [[ -e $f ]] && printf '%s\n' "${f%.conf}"; done)
  _booth_reply "$names" "$1"
  _booth_files -f -X '!*.conf' -- "$1"
  _booth_files -d -- "$1"
}

# Completes a word of booth-status or booth-record.
_booth_offer_tool() {
  local word=${words[cword]} before=${words[cword - 1]} program=${1##*/}
  local options=$'-c\n--conf\n'
  if [[ $program == booth-status ]]; then
    options+=$'-t\n--timeout\n-w\n--watch\n-b\n--brief\n-j\n--json\n-m\n--metrics\n-s\n--state\n'
    options+=$'-f\n--may-be-free\n--serve\n--doctor\n--check\n--members\n--sync\n'
  fi
  options+=$'-h\n--help\n-V\n--version'
  case $program:$before in
    *:-c | *:--conf | booth-status:--check) _booth_configurations "$word"; return ;;
    booth-status:-f | booth-status:--may-be-free) _booth_reply "$(_booth_values ticket)" "$word"; return ;;
    booth-status:-[ms] | booth-status:--metrics | booth-status:--state) _booth_files -f -- "$word"; return ;;
    booth-status:-t | booth-status:--timeout | booth-status:--sync) return ;;
    booth-status:--serve) [[ $word == -* ]] || { _booth_reply 127.0.0.1:9930 "$word"; return; } ;;
  esac
  if [[ $word == -* ]]; then
    _booth_reply "$options" "$word"
  elif [[ $program == booth-record && ${words[1]} == silence && cword -gt 1 ]]; then
    _booth_reply "$(_booth_values ticket)" "$word"
    _booth_files -d -- "$word"
  elif [[ $program == booth-record ]]; then
    ((cword == 1)) && _booth_reply silence "$word"
    _booth_files -f -X '!*.rec' -- "$word"
    _booth_files -d -- "$word"
  fi
}

# Completes a word of booth-follow: a ticket, and then a program.
_booth_offer_follow() {
  local i plain=0 word=${words[cword]} before=${words[cword - 1]}
  case $before in
    -c) _booth_configurations "$word"; return ;;
    -s) _booth_reply "$(_booth_values site)" "$word"; return ;;
    -d) _booth_files -f -- "$word"; return ;;
    -m | -k) return ;;
  esac
  if [[ $word == -* ]]; then
    _booth_reply $'-c\n-s\n-d\n-m\n-k\n-r\n--restart-on-term\n--help\n--version' "$word"
    return
  fi
  for ((i = 1; i < cword; i++)); do
    case ${words[i]} in
      -[csdmk]) ((i++)) ;;
      -*) ;;
      *) ((plain++)) ;;
    esac
  done
  case $plain in
    0) _booth_reply "$(_booth_values ticket)" "$word" ;;
    1) _booth_files -f -- "$word" ;;
  esac
}

# Completes a word of booth-service: a command, and then a ticket of the cluster booth.
_booth_offer_service() {
  local word=${words[cword]}
  if [[ $word == -* ]]; then
    _booth_reply $'-h\n--help\n-V\n--version' "$word"
  elif ((cword == 1)); then
    _booth_reply $'pause\nresume\nclear\nshow' "$word"
  elif ((cword == 2)); then
    _booth_reply "$(_booth_values ticket)" "$word"
  fi
}

# Completes a word of booth-setup: a command, its options, and the bundle of a join.
_booth_offer_setup() {
  local word=${words[cword]} before=${words[cword - 1]} options
  options=$'--postgresql\n--keep-records\n--root\n-n\n--dry-run\n-h\n--help\n-V\n--version'
  if [[ ${words[1]} == init ]]; then
    options=$'--site\n--arbitrator\n--ticket\n--expire\n--acquire-after\n--timeout\n--retries\n--renewal-freq\n--port\n--name\n'
    options+=$'--address\n--bundle\n--hand-over\n--no-journal\n--restart\n--synchronous\n--allow-basebackup\n'
    options+=$'--postgresql\n--keep-records\n--root\n-n\n--dry-run\n-h\n--help\n-V\n--version'
  fi
  case $before in
    --bundle) _booth_files -f -- "$word"; return ;;
    --root) _booth_files -d -- "$word"; return ;;
    --site | --arbitrator | --ticket | --name | --address | --postgresql | --port | --expire | --acquire-after | --timeout) return ;;
    --retries | --renewal-freq) return ;;
  esac
  if ((cword == 1)) && [[ $word != -* ]]; then
    _booth_reply $'init\njoin' "$word"
  elif [[ $word == -* ]]; then
    _booth_reply "$options" "$word"
  elif ((cword == 2)) && [[ ${words[1]} == join ]]; then
    _booth_files -f -- "$word"
  fi
}

# Completes a word of booth-switchover: a ticket, and then a site.
_booth_offer_switchover() {
  local i plain=0 word=${words[cword]} before=${words[cword - 1]}
  case $before in
    -c | --conf) _booth_configurations "$word"; return ;;
    -s | --site) _booth_reply "$(_booth_values site)" "$word"; return ;;
    -t | --timeout) return ;;
  esac
  if [[ $word == -* ]]; then
    _booth_reply $'-c\n--conf\n-s\n--site\n-t\n--timeout\n-h\n--help\n-V\n--version' "$word"
    return
  fi
  for ((i = 1; i < cword; i++)); do
    case ${words[i]} in
      -[cst] | --conf | --site | --timeout) ((i++)) ;;
      -*) ;;
      *) ((plain++)) ;;
    esac
  done
  case $plain in
    0) _booth_reply "$(_booth_values ticket)" "$word" ;;
    1) _booth_reply "$(_booth_values site)" "$word" ;;
  esac
}

# Completes a word of booth-pacemaker: a command, and then a ticket and resources of the cluster.
_booth_offer_pacemaker() {
  local i plain=0 word=${words[cword]} before=${words[cword - 1]} options=$'-c\n--conf\n-n\n--dry-run\n'
  case $before in
    -c | --conf) _booth_configurations "$word"; return ;;
    --records) _booth_files -d -- "$word"; return ;;
    --margin | --stop | --address) return ;;
    --with) _booth_reply "$(_booth_resources)" "$word"; return ;;
  esac
  if [[ $word == -* ]]; then
    [[ ${words[1]} == setup ]] && options+=$'--margin\n--stop\n--agent\n--address\n--records\n--with\n--shared\n--local\n'
    [[ ${words[1]} == remove ]] && options+=$'--all\n'
    _booth_reply "$options"$'-h\n--help\n-V\n--version' "$word"
    return
  fi
  for ((i = 1; i < cword; i++)); do
    case ${words[i]} in
      -c | --conf | --records | --margin | --stop | --address | --with) ((i++)) ;;
      -*) ;;
      *) ((plain++)) ;;
    esac
  done
  case $plain in
    0) _booth_reply $'setup\ncheck\nremove' "$word" ;;
    1) _booth_reply "$(_booth_values ticket)" "$word" ;;
    *) [[ ${words[1]} == setup ]] && _booth_reply "$(_booth_resources)" "$word" ;;
  esac
}

# prints the resources of this node's cluster
_booth_resources() {
  timeout -s KILL 3 crm_resource --list-raw 2>/dev/null
}

# Completes a word of booth-lease-guard.
_booth_offer_guard() {
  local word=${words[cword]}
  if [[ ${words[cword - 1]} == --cib ]]; then
    _booth_files -f -- "$word"
  else
    _booth_reply $'--cib\n--look\n-h\n--help\n-V\n--version' "$word"
  fi
}

# Finds out what the next word of a move is, from the words between its command and the cursor.
_booth_next_of_move() {
  local i plain=0
  for ((i = 2; i < cword; i++)); do
    case ${words[i]} in
      -c | -s) ((i++)) ;;
      -t) ((i++, plain++)) ;;
      -*) ;;
      move) [[ ${words[1]} == client && $i -eq 2 ]] || ((plain++)) ;;
      *) ((plain++)) ;;
    esac
  done
  ((plain == 0)) && printf ticket || printf site
}

# Completes the word before the cursor, from the words of the line in `words` and the number of this word.
_booth_offer() {
  local word=${words[cword]} before=${words[cword - 1]} program=${1##*/}
  local command=${words[1]} commands options
  case $program in
    boothd) commands=$'daemon\nstatus\nsim\naudit\nhelp' ;;
    geostore) commands=$'set\nget\ndelete\nlist\nhelp' ;;
    *) commands=$'list\nshow\npeers\nstatus\ngrant\nrevoke\nmove\nhelp' ;;
  esac
  # `booth` ignores a leading `client`
  [[ $program == booth && $command == client ]] && command=${words[2]}
  case $program:$command in
    boothd:daemon) options=$'-c\n-s\n-l\n-d\n-n\n--help\n--version' ;;
    boothd:status) options=$'-l\n--help\n--version' ;;
    boothd:sim) options=$'-c\n-e\n-r\n--help\n--version' ;;
    boothd:audit) options=$'-c\n--help\n--version' ;;
    geostore:*) options=$'-c\n-s\n-t\n--tcp\n--udp\n--help\n--version' ;;
    booth:show) options=$'-c\n-s\n-t\n-j\n--json\n--tcp\n--udp\n--help\n--version' ;;
    booth:grant) options=$'-c\n-s\n-t\n-w\n-C\n-F\n--tcp\n--udp\n--help\n--version' ;;
    booth:revoke) options=$'-c\n-s\n-t\n-w\n--tcp\n--udp\n--help\n--version' ;;
    booth:move) options=$'-c\n-s\n-t\n-w\n-f\n--force\n--tcp\n--udp\n--help\n--version' ;;
    *) options=$'-c\n-s\n--tcp\n--udp\n--help\n--version' ;;
  esac
  if ((cword == 1)); then
    [[ $word == -* ]] && commands=$'-h\n--help\n-V\n--version'
    _booth_reply "$commands" "$word"
    return
  fi
  [[ $command == help || $command == -* ]] && return
  case $before in
    -c) _booth_configurations "$word"; return ;;
    -s) _booth_reply "$(_booth_values site arbitrator)" "$word"; return ;;
    -t) _booth_reply "$(_booth_values ticket)" "$word"; return ;;
    -l | -d) COMPREPLY=(); _booth_files -f -- "$word"; return ;;
    -n | -e | -r) return ;;
  esac
  if [[ $word == -* ]]; then
    _booth_reply "$options" "$word"
  elif [[ $program:$command == boothd:audit ]]; then
    _booth_files -f -- "$word"
  elif [[ $program:$command == booth:move ]]; then
    # (first a ticket, and then a site; a word before the cursor is a ticket)
    _booth_reply "$(_booth_values "$(_booth_next_of_move)")" "$word"
  elif [[ $program:$command == booth:show || $program:$command == booth:grant || $program:$command == booth:revoke ]]; then
    _booth_reply "$(_booth_values ticket)" "$word"
  elif ((cword == 2)) && [[ $program == booth && $before == client ]]; then
    _booth_reply "$commands" "$word"
  fi
}

_booth_complete() {
  local words=("${COMP_WORDS[@]}") cword=$COMP_CWORD
  # (bash splits a word at a colon, for example in an IPv6 address; bash-completion has a function that joins it again)
  declare -F _get_comp_words_by_ref >/dev/null && _get_comp_words_by_ref -n : -w words -i cword
  COMPREPLY=()
  case ${1##*/} in
    booth-status | booth-record) _booth_offer_tool "$1" ;;
    booth-follow) _booth_offer_follow ;;
    booth-service) _booth_offer_service ;;
    booth-setup) _booth_offer_setup ;;
    booth-switchover) _booth_offer_switchover ;;
    booth-pacemaker) _booth_offer_pacemaker ;;
    booth-lease-guard) _booth_offer_guard ;;
    *) _booth_offer "$1" ;;
  esac
  # no blank is added after a directory
  [[ ${#COMPREPLY[@]} -eq 1 && ${COMPREPLY[0]} == */ ]] && compopt -o nospace 2>/dev/null
  declare -F __ltrim_colon_completions >/dev/null && __ltrim_colon_completions "${words[cword]}"
  return 0
}

complete -F _booth_complete boothd booth geostore booth-follow booth-status booth-record booth-service booth-setup booth-switchover \
  booth-pacemaker booth-lease-guard
