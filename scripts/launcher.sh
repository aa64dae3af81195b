#!/bin/sh
# Runs NAME as it was built for this processor: for x86-64-v3 if /proc/cpuinfo has its features,
# else for every x86-64-v2.
at="PLACE/x86-64-v2"
if [ -x "PLACE/x86-64-v3/NAME" ] && [ -r /proc/cpuinfo ]; then
  while read -r field _ features; do
    [ "$field" = flags ] || continue
    at="PLACE/x86-64-v3"
    for wanted in avx avx2 bmi1 bmi2 f16c fma abm movbe xsave; do
      case " $features " in
        *" $wanted "*) ;;
        *) at="PLACE/x86-64-v2" ;;
      esac
    done
    break
  done < /proc/cpuinfo
fi
exec "$at/NAME" "$@"
