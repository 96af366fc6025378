#!/bin/sh
# Instructions of one call each, the site's being one of 100 signs, quick's on a table that is just firm and those by whole rounds with a
# million strips, by callgrind: the same on every run. Usage: instructions.sh BENCH
set -eu
bench=$1
if ! command -v valgrind >/dev/null 2>&1; then
    echo 'bench-instructions: valgrind is not installed, nothing counted'
    exit 0
fi
out=$(mktemp)
trap 'rm -f "$out" "$out.log"' EXIT

# count FUNCTION W SLOTS K
count() {
    valgrind --tool=callgrind --callgrind-out-file="$out" --toggle-collect="$1" \
        "$bench" --once "$2" "$3" "$4" >"$out.log" 2>&1
    sed -n 's/.*Collected : *//p' "$out.log"
}

printf '%5s %5s %5s %14s %14s %14s %14s %14s %14s %14s %14s\n' w slots k judge quick 'site of 100' count grant 'rounds judge' \
    'rounds count' doubling
for cell in '55 4 10' '1300 4 125' '1300 4 1024' '4096 64 1024' '16384 4 10' '16384 64 1024'; do
    set -- $cell
    printf '%5s %5s %5s' "$@"
    for function in fiddlequill_judge fiddlequill_quick fiddlequill_site fiddlequill_count fiddlequill_grant \
        fiddlequill_rounds_judge fiddlequill_rounds_count doubling_judge; do
        printf ' %14s' "$(count "$function" "$@")"
    done
    echo
done
