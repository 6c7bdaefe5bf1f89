#!/bin/sh
# fence_strip: a fencing device, as the power strip of a machine room is one. tests/cluster_world.py puts it into its
# machines, and is what cuts the power: it finds the request as a file on the disk of the machine that asks.
set -u
room=/var/lib/booth-test/strip
action=reboot plug=''

meta_data() {
  cat <<END
<?xml version="1.0" ?>
<resource-agent name="fence_strip" shortdesc="The power strip of the machines under test">
<longdesc>It asks the host to end a machine.</longdesc>
<vendor-url>none</vendor-url>
<parameters>
<parameter name="action" unique="0" required="1"><getopt mixed="-o, --action=[action]"/>
<content type="string" default="reboot"/><shortdesc lang="en">Fencing action</shortdesc></parameter>
<parameter name="port" unique="0" required="1"><getopt mixed="-n, --plug=[name]"/>
<content type="string"/><shortdesc lang="en">The machine</shortdesc></parameter>
</parameters>
<actions>
<action name="on" automatic="0"/><action name="off"/><action name="reboot"/><action name="status"/>
<action name="monitor"/><action name="list"/><action name="metadata"/><action name="validate-all"/>
</actions>
</resource-agent>
END
}

# Asks for what is to be done, and waits 15 seconds until it is done.
request() {
  mkdir -p "$room"
  rm -f "$room/$plug.done"
  echo "$action" >"$room/$plug.new"
  mv "$room/$plug.new" "$room/$plug.request"
  tries=0
  while [ ! -e "$room/$plug.done" ]; do
    [ $tries -lt 150 ] || return 1
    tries=$((tries + 1))
    sleep 0.1
  done
}

if [ $# -gt 0 ]; then
  while [ $# -gt 1 ]; do
    case $1 in -o) action=$2 ;; -n) plug=$2 ;; esac
    shift
  done
else
  while read -r line; do
    case $line in action=*) action=${line#*=} ;; port=* | plug=*) plug=${line#*=} ;; esac
  done
fi
case $action in
  metadata | meta-data) meta_data ;;
  on | off | reboot) request ;;
  *) ;;
esac
