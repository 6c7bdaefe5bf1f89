#!/bin/sh
# ocf:booth-test:writer: a service that notes each 100 ms that it runs. tests/cluster_world.py puts it into its machines.
#
# Files in /var/lib/booth-test bring faults about: `slow-stop` holds how many seconds a stop takes, and with
# `hanging-stop` a stop does not end.
set -u
faults=/var/lib/booth-test
writer=/usr/local/lib/cluster_writer.py
name=${OCF_RESKEY_name:-agent}
pid_file=/run/booth-test-$name.pid

meta_data() {
  cat <<END
<?xml version="1.0"?>
<!DOCTYPE resource-agent SYSTEM "ra-api-1.dtd">
<resource-agent name="writer" version="1.0">
<version>1.0</version>
<longdesc lang="en">Notes each 100 ms that it runs.</longdesc>
<shortdesc lang="en">Notes that it runs</shortdesc>
<parameters>
<parameter name="name" unique="1"><longdesc lang="en">The name of its log.</longdesc>
<shortdesc lang="en">name</shortdesc><content type="string" default="agent"/></parameter>
<parameter name="seconds"><longdesc lang="en">How long a start takes.</longdesc>
<shortdesc lang="en">seconds</shortdesc><content type="integer" default="0"/></parameter>
</parameters>
<actions>
<action name="start" timeout="20s"/><action name="stop" timeout="20s"/>
<action name="monitor" timeout="20s" interval="10s" depth="0"/>
<action name="meta-data" timeout="5s"/><action name="validate-all" timeout="5s"/>
</actions>
</resource-agent>
END
}

# Whether the writer runs; the variable `pid` is its number.
runs() {
  pid=$(cat "$pid_file" 2>/dev/null) && [ -n "$pid" ] && grep -q cluster_writer "/proc/$pid/cmdline" 2>/dev/null
}

start() {
  ! runs || return 0
  sleep "${OCF_RESKEY_seconds:-0}"
  setsid python3 -IS "$writer" "/var/log/booth-test-$name.log" </dev/null >/dev/null 2>&1 &
  echo $! >"$pid_file"
  # (on a machine that does much else, a program begins late)
  for _ in 1 2 3 4 5 6 7 8 9 10; do
    sleep 0.2
    ! runs || return 0
  done
  return 1
}

stop() {
  runs || return 0
  while [ -e "$faults/hanging-stop" ]; do sleep 1; done
  ! seconds=$(cat "$faults/slow-stop" 2>/dev/null) || sleep "$seconds"
  kill -KILL "$pid"
  for _ in 1 2 3 4 5 6 7 8 9 10; do
    runs || return 0
    sleep 0.1
  done
  return 1
}

case ${1:-} in
  meta-data) meta_data ;;
  validate-all) ;;
  start) start ;;
  stop) stop ;;
  monitor) runs || exit 7 ;;
  *) exit 3 ;;
esac
