#!/bin/sh
# Reads the output of `rt run`, and prints which crate of crates.txt it proves now, for example `3 of 11: booth_wire`.
# A crate that an earlier run has proved is not named.

crates=$(sed -n 's/^\([a-z0-9_]*\):.*/\1/p' crates.txt)
count=$(echo "$crates" | wc -l)
while read -r line; do
  case $line in
    'rt: chose --jobs '*' for '*)
      name=${line##* }
      place=$(echo "$crates" | grep -nx "$name" | cut -d: -f1)
      [ -z "$place" ] || echo "$place of $count: $name"
      ;;
  esac
done
