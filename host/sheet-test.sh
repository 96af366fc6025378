#!/bin/sh
# What the sheet says of files that can't be read, from the program itself and from sheet.sh. SITE has tables and the records made from them.
# Usage: sheet-test.sh SHEET RECORDS HALFWAY SITE
set -u
here=$(dirname "$0") records=$2 halfway=$(realpath "$3") site=$4
folder=$(mktemp -d) || exit 1
trap 'rm -rf "$folder"' EXIT
tried=0 failed=0
only='- 1 0 0 0'

# The program stands where another user reaches it: on some machines a script that starts the program beside it.
chmod 755 "$folder"
cp "$1" "$folder/sheet"
[ ! -e "$1.x86-64" ] || cp "$1.x86-64" "$folder/sheet.x86-64"
sheet=$folder/sheet

fail() {
    failed=$((failed + 1))
    echo "sheet-test: FAILED: $1"
}

skip() {
    echo "sheet-test: skipped: $1"
}

# A fresh folder `site` with good records.
fresh() {
    rm -rf "$folder/site" "$folder/room"
    mkdir "$folder/site"
    cp "$site/tasks.bin" "$site/slots.bin" "$folder/site"
}

# prints NAME [RUN...]: the program, started by RUN in the fresh folder, must print the one line alone and end well.
prints() {
    tried=$((tried + 1))
    name=$1
    shift
    out=$(cd "$folder/site" && "$@" "$sheet") || fail "$name: exit status $?"
    [ "$out" = "$only" ] || fail "$name: printed \"$out\""
}

# says NAME TEXT PRINTED: sheet.sh must say TEXT, print PRINTED and end well.
says() {
    tried=$((tried + 1))
    out=$("$here/sheet.sh" "$sheet" "$records" "$folder/site" "$folder/room" 2>"$folder/said") || fail "$1: exit status $?"
    [ "$out" = "$3" ] || fail "$1: printed \"$out\""
    [ "$(cat "$folder/said")" = "$2" ] || fail "$1: said \"$(cat "$folder/said")\", not \"$2\""
}

# The good site, so that a refusal below comes from the file alone.
fresh
whole=$(cd "$folder/site" && "$sheet")
case $whole in '' | "$only") fail "a good site: printed \"$whole\"" ;; esac

for file in tasks.bin slots.bin; do
    fresh; rm "$folder/site/$file"
    prints "no $file"
    fresh; rm "$folder/site/$file"; mkdir "$folder/site/$file"
    prints "a folder for $file"
done

# A file that opens and whose first read fails: nothing is ever mapped at address 0.
for file in tasks.bin slots.bin; do
    fresh; ln -sf /proc/self/mem "$folder/site/$file"
    if cat "$folder/site/$file" >/dev/null 2>&1 || ! true <"$folder/site/$file"; then
        skip "$file whose first read fails: no such file here"
    else
        prints "$file whose first read fails"
    fi
done

# A file whose reads fail half way, when all of its bytes have come.
for file in tasks.bin slots.bin; do
    fresh; mv "$folder/site/$file" "$folder/site/whole"
    (cd "$folder/site" && "$halfway" whole none true)
    case $? in
    0) prints "$file whose reads fail half way" "$halfway" whole "$file" ;;
    77) skip "$file whose reads fail half way: no terminal here" ;;
    *) fail "$file whose reads fail half way: no such file was made" ;;
    esac
done

# A file without rights. Root reads it all the same, so root becomes nobody for it, by what the system has.
unread() {
    if [ "$(id -u)" != 0 ]; then
        run=
    elif setpriv --reuid=65534 --regid=65534 --clear-groups true 2>/dev/null; then
        run='setpriv --reuid=65534 --regid=65534 --clear-groups'
    else
        return 1
    fi
    $run sh -c 'cd "$1" && [ -x "$2" ] && [ ! -r "$3" ]' sh "$folder/site" "$sheet" "$1" 2>/dev/null
}
for file in tasks.bin slots.bin; do
    fresh; chmod 000 "$folder/site/$file"
    # shellcheck disable=SC2086
    if unread "$file"; then prints "$file without rights" env $run; else skip "$file without rights: this user reads it"; fi
done

# sheet.sh says which file it is, and the program's line is still printed.
fresh
says 'a good site' '' "$whole"
fresh; rm "$folder/site/tasks.bin"
says 'no tasks.bin' "make sheet: $folder/site/tasks.bin: no such file" "$only"
fresh; rm "$folder/site/slots.bin"
says 'no slots.bin' "make sheet: $folder/site/slots.bin: no such file" "$only"
fresh; rm "$folder/site"/*
says 'no files' "make sheet: $folder/site/tasks.bin: no such file
make sheet: $folder/site/slots.bin: no such file" "$only"
fresh; rm "$folder/site/slots.bin"; mkdir "$folder/site/slots.bin"
says 'a folder for slots.bin' "make sheet: $folder/site/slots.bin: not a file" "$only"
fresh; ln -sf slots.bin "$folder/site/slots.bin"
says 'a link in a circle for slots.bin' "make sheet: $folder/site/slots.bin: a link that leads to no file" "$only"
fresh; rm "$folder/site"/*; cp "$site"/*.csv "$folder/site"
says 'tables' '' "$whole"
# The lengths that leave the one line alone, or as the last: a file of 65,536 bytes is read.
zeros() { head -c "$2" /dev/zero >"$folder/site/$1.bin"; }
fresh; zeros tasks 65537
says 'a long tasks.bin' "make sheet: $folder/site/tasks.bin: 65537 bytes, more than 65536" "$only"
fresh; zeros slots 65544
says 'a long slots.bin' "make sheet: $folder/site/slots.bin: 65544 bytes, more than 65536" "$only"
fresh; zeros slots 65532
says 'the longest slots.bin' '' "$(printf '1 15 0 0 0\n2 15 0 0 0\n3 15 0 0 0')"
fresh; zeros slots 13
says 'a part of a slot' "make sheet: $folder/site/slots.bin: 13 bytes aren't whole records of 12" "$only"
fresh; printf x >>"$folder/site/tasks.bin"
says 'a part of a task' "make sheet: $folder/site/tasks.bin: 97 bytes aren't whole records of 32" "$whole
$only"
fresh; zeros tasks 0
says 'no tasks' '' ''
fresh; rm "$folder/site"/*; cp "$site"/*.csv "$folder/site"
awk 'BEGIN { for (i = 0; i < 2046; i++) print "1,55,27,70,70,3,10,0,2" }' >>"$folder/site/tasks.csv"
says 'tables of too many tasks' "make sheet: $folder/room/tasks.bin: 65568 bytes, more than 65536" "$only"
# Tables with a bad slot or too large an id make a sheet like any others, and the line is said beside it.
fresh; rm "$folder/site"/*
printf 'id,w,e,D,h,m,k,first,count\n1,55,27,70,70,3,10,0,2\n65537,55,27,70,70,3,10,0,2\n' >"$folder/site/tasks.csv"
printf 'start,end,owner,loss\n11,21,1,0\n33,56,2,0\n' >"$folder/site/slots.csv"
past='a slot whose end is above the wheel w'
says 'a bad slot and a bad id' \
    "$folder/site/slots.csv:3: slot 1 (owner 2) of the board of task 1 ($folder/site/tasks.csv:2): $past
$folder/site/tasks.csv:3: task 65537: the id isn't from 0 to 65,535" \
    '1 16 0 0 0
65537 19 0 0 0'
printf 'start,end,owner,loss\n11,21,1,10\n33,43,2,11\n' >"$folder/site/slots.csv"
long='a slot whose loss is above its length (loss 11, length 10)'
says 'a long loss and a bad id' \
    "$folder/site/slots.csv:3: slot 1 (owner 2) of the board of task 1 ($folder/site/tasks.csv:2): $long
$folder/site/tasks.csv:3: task 65537: the id isn't from 0 to 65,535" \
    '1 18 0 0 0
65537 19 0 0 0'
# Of the losses of task 1 each takes a tick, those of tasks 2 and 3 are a pair's, which takes none, and a slot's own.
fresh; rm "$folder/site"/*
printf 'id,w,e,D,h,m,k,first,count\n1,55,27,70,70,3,10,0,2\n2,10,4,5,14,1,2,2,2\n3,10,3,5,14,1,2,4,1\n' \
    >"$folder/site/tasks.csv"
printf 'start,end,owner,loss\n11,21,1,1\n33,43,1,1\n0,4,2,0\n4,8,2,4\n0,8,3,1\n' >"$folder/site/slots.csv"
says 'losses' '' '1 0 0 9 45
2 0 0 2 9
3 0 1 1 3'
fresh; rm "$folder/site"/*; cp "$site/tasks.csv" "$folder/site"
says 'no slots.csv' "make sheet: $folder/site/slots.csv: no such file" "$only"
fresh; rm "$folder/site"/*; cp "$site/slots.csv" "$folder/site"
says 'no tasks.csv' "make sheet: $folder/site/tasks.csv: no such file" "$only"

# What can't be printed is no good end. The program itself has no exit status.
tried=$((tried + 2))
fresh
"$here/sheet.sh" "$sheet" "$records" "$folder/site" "$folder/room" >/dev/full 2>"$folder/said" && fail 'a full output: taken'
grep -q '^make sheet: standard output: ' "$folder/said" || fail "a full output: said \"$(cat "$folder/said")\""
"$here/sheet.sh" "$sheet" "$records" "$folder/site" "$folder/room" >&- 2>"$folder/said" && fail 'a closed output: taken'
grep -q '^make sheet: standard output: ' "$folder/said" || fail "a closed output: said \"$(cat "$folder/said")\""

# A folder's name may begin like an option, and be another's name as well on the path on which a shell looks for folders.
tried=$((tried + 1))
fresh; mkdir "$folder/other" "$folder/other/-site"
mv "$folder/site" "$folder/-site"
script=$(realpath "$here/sheet.sh") maker=$(realpath "$records")
out=$(cd "$folder" && CDPATH="$folder/other" "$script" "$sheet" "$maker" -site room) || fail "-site: exit status $?"
[ "$out" = "$whole" ] || fail "-site: printed \"$out\""
mv "$folder/-site" "$folder/site"

# The room is a site of tables itself: they stay.
tried=$((tried + 1))
fresh; rm "$folder/site"/*; cp "$site"/*.csv "$folder/site"
out=$("$here/sheet.sh" "$sheet" "$records" "$folder/site" "$folder/site") || fail "a site for the room: exit status $?"
[ "$out" = "$whole" ] || fail "a site for the room: printed \"$out\""
cmp -s "$site/tasks.csv" "$folder/site/tasks.csv" || fail 'a site for the room: the tables are gone'

# No sheet stands for a table that can't be read or a site that isn't there.
tried=$((tried + 4))
fresh; rm "$folder/site"/*; cp "$site"/*.csv "$folder/site"; echo 1 >>"$folder/site/slots.csv"
"$here/sheet.sh" "$sheet" "$records" "$folder/site" "$folder/room" >/dev/null 2>&1 && fail 'a bad table: taken'
"$here/sheet.sh" "$sheet" "$records" "$folder/none" "$folder/room" >/dev/null 2>&1 && fail 'no site: taken'
printf 'start,end\n11,21\n33,43\n0,8\n' >"$folder/site/slots.csv"
"$here/sheet.sh" "$sheet" "$records" "$folder/site" "$folder/room" >"$folder/said" 2>&1 &&
    fail 'slots without owners: taken'
[ "$(cat "$folder/said")" = "$folder/site/slots.csv:1: field owner: missing" ] ||
    fail "slots without owners: said \"$(cat "$folder/said")\""
printf 'start,end,owner\n11,21,1\n33,43,1\n0,8,2\n' >"$folder/site/slots.csv"
"$here/sheet.sh" "$sheet" "$records" "$folder/site" "$folder/room" >"$folder/said" 2>&1 &&
    fail 'slots without losses: taken'
[ "$(cat "$folder/said")" = "$folder/site/slots.csv:1: field loss: missing" ] ||
    fail "slots without losses: said \"$(cat "$folder/said")\""

echo "sheet-test: $tried cases, $failed failed"
[ "$failed" -eq 0 ]
