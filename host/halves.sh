#!/bin/sh
# The second program in two halves, side by side, each with a seed of its own. Usage: halves.sh SECOND INPUTS SEED
set -u
second=$1 half=$(($2 / 2)) seed=$3
log=$(mktemp) || exit 1
trap 'rm -f "$log"' EXIT
"$second" "$half" "$((seed + 1))" >"$log" 2>&1 &
other=$!
"$second" "$half" "$seed"
one=$?
wait "$other"
two=$?
if [ "$two" -eq 0 ]; then tail -n 1 "$log"; else cat "$log"; fi
[ "$one" -eq 0 ] && [ "$two" -eq 0 ]
