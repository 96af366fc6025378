#!/bin/sh
# Tries `records`: round trip, each kind of complaint, and what it says of boards that are wrong.
# Usage: records-test.sh RECORDS
set -u
records=$1
folder=$(mktemp -d) || exit 1
trap 'rm -rf "$folder"' EXIT
tried=0 failed=0

tasks_header='id,w,e,D,h,m,k,first,count'
slots_header='start,end,owner,loss'

fail() {
    failed=$((failed + 1))
    echo "records-test: FAILED: $1"
}

# A fresh folder with good tables.
fresh() {
    rm -rf "$folder"/*
    printf '%s\n1,55,27,70,70,3,10,0,2\n' "$tasks_header" >"$folder/tasks.csv"
    printf '%s\n11,21,1,0\n33,43,1,10\n' "$slots_header" >"$folder/slots.csv"
}

# complains NAME TEXT [LEFT]: `make` must fail, say TEXT, and leave only the tables and LEFT.
complains() {
    tried=$((tried + 1))
    if "$records" make "$folder" 2>"$folder/said"; then fail "$1: it was taken"; return; fi
    grep -qF -- "$2" "$folder/said" || fail "$1: said \"$(cat "$folder/said")\", not \"$2\""
    left=$(cd "$folder" && ls | grep -v -e '\.csv$' -e '^said$' | tr '\n' ' ')
    [ "$left" = "${3:-}" ] || fail "$1: left $left"
}

# written NAME: both tables, comments and blank lines left out, must be in the records.
written() {
    { for table in tasks slots; do echo "# $table.csv"; grep -v -e '^#' -e '^$' "$folder/$table.csv"; done; } >"$folder/expected"
    "$records" show "$folder" >"$folder/shown" || fail "$1: show"
    cmp -s "$folder/shown" "$folder/expected" || fail "$1: shown differently"
}

# tells NAME TEXT: `make` must end well, write the records, print nothing, and say TEXT, in which the folder is left out.
tells() {
    tried=$((tried + 1))
    rm -f "$folder"/*.bin
    "$records" make "$folder" >"$folder/printed" 2>"$folder/said" || fail "$1: exit status $?"
    said=$(sed "s|$folder/||g" "$folder/said")
    [ "$said" = "$2" ] || fail "$1: said \"$said\", not \"$2\""
    [ ! -s "$folder/printed" ] || fail "$1: printed \"$(cat "$folder/printed")\""
    written "$1"
}

# tables TASKS SLOTS: a fresh folder whose tables have these lines, with \n between them, behind their headers. A slot of
# three numbers loses nothing.
tables() {
    rm -rf "$folder"/*
    printf "$tasks_header\n%b\n" "$1" >"$folder/tasks.csv"
    printf "$slots_header\n%b\n" "$2" | sed 's/^[0-9]*,[0-9]*,[0-9]*$/&,0/' >"$folder/slots.csv"
}

# slots N: N slots of a tick each, as lines of a table; every second one is task 7's.
slots() { awk -v n="$1" 'BEGIN { for (i = 0; i < n; i++) printf "%d,%d,%d\n", 2 * i, 2 * i + 1, 7 + i % 2 }'; }

# bad_task NAME LINE TEXT, bad_slot NAME LINE TEXT: a second line that can't be read.
bad_task() { fresh; printf '%s\n' "$2" >>"$folder/tasks.csv"; complains "$1" "tasks.csv:3: $3"; }
bad_slot() { fresh; printf '%s\n' "$2" >>"$folder/slots.csv"; complains "$1" "slots.csv:4: $3"; }

# Round trip: comments, blanks and spaces go, every number at its width's end stays.
tried=$((tried + 1))
fresh
{
    printf '# a comment\n\n%s\r\n' "$tasks_header"
    printf ' 1, 55,27,70,70,3,10,0,2 \n   \n#x\n'
    printf '4294967295,4294967295,0,4294967295,4294967295,1,2,65535,65535'
} >"$folder/tasks.csv"
printf ' 4294967295 ,4294967295,65535, 65535 \n0,0,0,0\n5,7,1,256\n' >>"$folder/slots.csv"
"$records" make "$folder" 2>/dev/null || fail 'round trip: make'
"$records" show "$folder" >"$folder/shown" || fail 'round trip: show'
cat >"$folder/expected" <<END
# tasks.csv
$tasks_header
1,55,27,70,70,3,10,0,2
4294967295,4294967295,0,4294967295,4294967295,1,2,65535,65535
# slots.csv
$slots_header
11,21,1,0
33,43,1,10
4294967295,4294967295,65535,65535
0,0,0,0
5,7,1,256
END
cmp -s "$folder/shown" "$folder/expected" || fail 'round trip: shown differently'

# What was shown makes the same bytes again.
tried=$((tried + 1))
cp "$folder/tasks.bin" "$folder/tasks.first"
cp "$folder/slots.bin" "$folder/slots.first"
sed '/^# slots.csv/,$d' "$folder/shown" >"$folder/tasks.csv"
sed '1,/^# slots.csv/d' "$folder/shown" >"$folder/slots.csv"
"$records" make "$folder" 2>/dev/null || fail 'second round: make'
cmp -s "$folder/tasks.bin" "$folder/tasks.first" || fail 'second round: tasks.bin'
cmp -s "$folder/slots.bin" "$folder/slots.first" || fail 'second round: slots.bin'

# bytes TABLE HEX: the bytes of its records.
bytes() {
    found=$(od -An -v -tx1 "$folder/$1.bin" | tr -d ' \n')
    [ "$found" = "$2" ] || fail "bytes of $1.bin: $found"
}

# The bytes themselves, once.
tried=$((tried + 1))
fresh
printf '%s\n67305985,2,3,4,5,6,7,258,9\n' "$tasks_header" >"$folder/tasks.csv"
printf '%s\n67305985,134678021,2569,3083\n4294967295,0,65535,0\n0,4294967295,0,65535\n' "$slots_header" >"$folder/slots.csv"
"$records" make "$folder" 2>/dev/null || fail 'bytes: make'
bytes tasks 0102030402000000030000000400000005000000060000000700000002010900
bytes slots 0102030405060708090a0b0cffffffff00000000ffff000000000000ffffffff0000ffff

# A byte-order mark before the first line, as spreadsheets write it, changes no byte of the records.
tried=$((tried + 1))
fresh
"$records" make "$folder" || fail 'byte-order mark: make without'
for table in tasks slots; do
    cp "$folder/$table.bin" "$folder/$table.first"
    { printf '\357\273\277'; cat "$folder/$table.csv"; } >"$folder/marked"
    mv "$folder/marked" "$folder/$table.csv"
done
"$records" make "$folder" || fail 'byte-order mark: make'
cmp -s "$folder/tasks.bin" "$folder/tasks.first" || fail 'byte-order mark: tasks.bin'
cmp -s "$folder/slots.bin" "$folder/slots.first" || fail 'byte-order mark: slots.bin'

# No records is a good table.
tried=$((tried + 1))
fresh
echo "$slots_header" >"$folder/slots.csv"
"$records" make "$folder" 2>/dev/null || fail 'no slots: make'
[ -e "$folder/slots.bin" ] && [ ! -s "$folder/slots.bin" ] || fail 'no slots: slots.bin'

bad_task 'a word' '1,55,x7,70,70,3,10,0,2' 'field e: not a number: "x7"'
bad_task 'a sign' '1,55,27,70,-70,3,10,0,2' 'field h: not a number: "-70"'
bad_task 'a fraction' '1,55,27,7.5,70,3,10,0,2' 'field D: not a number: "7.5"'
bad_task 'an empty field' '1,,27,70,70,3,10,0,2' 'field w: not a number: ""'
bad_task 'over 32 bits' '1,55,27,70,70,4294967296,10,0,2' 'field m: above 4294967295: "4294967296"'
bad_task 'far over 64 bits' '99999999999999999999999,1,1,1,1,1,1,0,0' 'field id: above 4294967295'
bad_task 'over 16 bits' '1,55,27,70,70,3,10,65536,2' 'field first: above 65535: "65536"'
bad_task 'a missing field' '1,55,27,70,70,3,10,0' 'field count: missing'
bad_task 'an extra field' '1,55,27,70,70,3,10,0,2,8' 'field count: an extra field after it: "8"'
bad_slot 'a slot with one number' '50' 'field end: missing'
bad_slot 'a slot without owner' '50,51' 'field owner: missing'
bad_slot 'a slot without loss' '50,51,1' 'field loss: missing'
bad_slot 'a slot with five numbers' '50,51,1,0,0' 'field loss: an extra field after it: "0"'
bad_slot 'a slot word' 'a,51,1,0' 'field start: not a number: "a"'
bad_slot 'an end over 32 bits' '50,4294967296,1,0' 'field end: above 4294967295: "4294967296"'
bad_slot 'an owner over 16 bits' '50,51,65536,0' 'field owner: above 65535: "65536"'
bad_slot 'an owner far over 64 bits' '50,51,99999999999999999999999,0' 'field owner: above 65535'
bad_slot "an owner's name" '50,51,chime,0' 'field owner: not a number: "chime"'
bad_slot 'an empty owner' '50,51,,0' 'field owner: not a number: ""'
bad_slot 'a loss over 16 bits' '50,51,1,65536' 'field loss: above 65535: "65536"'
bad_slot 'a loss far over 64 bits' '50,51,1,99999999999999999999999' 'field loss: above 65535'
bad_slot 'a loss below 0' '50,51,1,-1' 'field loss: not a number: "-1"'
bad_slot 'half a tick of loss' '50,51,1,0.5' 'field loss: not a number: "0.5"'
bad_slot 'an empty loss' '50,51,1,' 'field loss: not a number: ""'

# What a complaint shows of a field: sixty bytes at most, and those that a screen doesn't show by their numbers.
fresh; printf '1,2\000,1,0\n' >>"$folder/slots.csv"
complains 'a byte 0' 'slots.csv:4: field end: not a number: "2\x00"'
fresh; printf '1,2\033[2J,1,0\n' >>"$folder/slots.csv"
complains 'a byte that clears the screen' 'slots.csv:4: field end: not a number: "2\x1b[2J"'
fresh; echo "$slots_header" | sed 's/./&@/g' | tr @ '\000' >"$folder/slots.csv"
complains 'UTF-16' 'slots.csv:1: field start: the header has another name here: "s\x00t\x00a\x00r\x00t\x00"'
bad_slot 'sixty digits' "1,2,$(printf %060d 65536),0" "field owner: above 65535: \"$(printf %060d 65536)\""
bad_slot 'sixty-one digits' "1,2,$(printf %061d 65536),0" "field owner: above 65535: \"$(printf %060d 6553) ..\""

fresh; echo '1,55,27,70,70,3,10,0,2' >"$folder/tasks.csv"
complains 'no header' 'tasks.csv:1: field id: the header has another name here: "1"'
fresh; : >"$folder/tasks.csv"
complains 'an empty table' 'tasks.csv:1: field id: no header line'
fresh; printf '\357\273\277' >"$folder/tasks.csv"
complains 'a byte-order mark alone' 'tasks.csv:1: field id: no header line'
fresh; printf '\357\273%s\n' "$tasks_header" >"$folder/tasks.csv"
complains 'part of a byte-order mark' 'tasks.csv:1: field id: the header has another name here'
fresh; printf '%s\n\357\273\2771,2,3,0\n' "$slots_header" >"$folder/slots.csv"
complains 'a byte-order mark on a later line' 'slots.csv:2: field start: not a number'
fresh; echo 'begin,end,owner,loss' >"$folder/slots.csv"
complains 'another header' 'slots.csv:1: field start: the header has another name here: "begin"'
fresh; printf '# for the painter alone\nstart,end\n11,21\n' >"$folder/slots.csv"
complains 'a header without owner' 'slots.csv:2: field owner: missing'
fresh; printf 'start,end\n11,21,1\n' >"$folder/slots.csv"
complains 'owners below a header without them' 'slots.csv:1: field owner: missing'
fresh; echo 'start,end,task,loss' >"$folder/slots.csv"
complains 'another name for the owner' 'slots.csv:1: field owner: the header has another name here: "task"'
fresh; printf '# as it was without losses\nstart,end,owner\n11,21,1\n' >"$folder/slots.csv"
complains 'a header without loss' 'slots.csv:2: field loss: missing'
fresh; printf 'start,end,owner\n11,21,1,0\n' >"$folder/slots.csv"
complains 'losses below a header without them' 'slots.csv:1: field loss: missing'
fresh; echo 'start,end,owner,spare' >"$folder/slots.csv"
complains 'another name for the loss' 'slots.csv:1: field loss: the header has another name here: "spare"'
fresh; echo 'start,end,loss,owner' >"$folder/slots.csv"
complains 'loss before owner' 'slots.csv:1: field owner: the header has another name here: "loss"'
fresh; echo "$slots_header,spare" >"$folder/slots.csv"
complains 'a header with one column more' 'slots.csv:1: field loss: an extra field after it: "spare"'
fresh; rm "$folder/slots.csv"
complains 'a missing table' 'slots.csv: No such file'
fresh; ln -sf slots.csv "$folder/slots.csv"
complains 'a link in a circle' 'slots.csv: Too many levels of symbolic links'
fresh; ln -sf /dev/zero "$folder/slots.csv"
complains 'a table without an end' 'slots.csv: File too large'
fresh; ln -s /dev/full "$folder/slots.bin.part"
complains 'no room for the part' 'slots.bin.part: No space left on device'
fresh; mkdir "$folder/slots.bin.part"
complains 'no place for the part' 'slots.bin.part: ' 'slots.bin.part '
fresh; mkdir -p "$folder/tasks.bin/x"
complains 'no place for the records' 'tasks.bin: ' 'tasks.bin '

# An old output stays whole when the new table can't be read.
tried=$((tried + 1))
fresh
"$records" make "$folder" || fail 'old output: make'
cp "$folder/tasks.bin" "$folder/tasks.first"
echo '1,2' >>"$folder/tasks.csv"
"$records" make "$folder" 2>/dev/null && fail 'old output: taken'
cmp -s "$folder/tasks.bin" "$folder/tasks.first" || fail 'old output: changed'

# The records may go into another folder; the tables' own stays as it is.
tried=$((tried + 1))
fresh
mkdir "$folder/into"
"$records" make "$folder" "$folder/into" || fail 'another folder: make'
[ -e "$folder/tasks.bin" ] || [ -e "$folder/slots.bin" ] && fail "another folder: the tables' own has records, too"
"$records" show "$folder/into" >"$folder/shown" || fail 'another folder: show'
grep -qx '1,55,27,70,70,3,10,0,2' "$folder/shown" || fail 'another folder: other records'

# part TABLE BYTES: a part record is complained about, the records before it are shown.
part() {
    tried=$((tried + 1))
    fresh
    "$records" make "$folder" || fail "part record of $1: make"
    printf 'x' >>"$folder/$1.bin"
    "$records" show "$folder" >"$folder/shown" 2>"$folder/said" && fail "part record of $1: taken"
    grep -qF "$1.bin: $2 bytes, the last record isn't whole" "$folder/said" || fail "part record of $1: said something else"
    sed -n "/^# $1.csv/,\$p" "$folder/shown" | sed 1d | cmp -s - "$folder/$1.csv" || fail "part record of $1: shown differently"
}
part tasks 33
part slots 25

# Boards that would be refused: the line is named, and whose slot it is, and the records are written all the same.
beyond='first + count goes beyond the last slot record'
wheel="the wheel w isn't from 1 to 16,384 ticks"
many='the board has more than 512 slot records'
empty="a slot whose start isn't below its end"
past='a slot whose end is above the wheel w'
early='a slot whose start is below the end of the slot before it'
long='a slot whose loss is above its length'
id="the id isn't from 0 to 65,535"
task='7,55,27,70,70,3,10,0,3'
board='of the board of task 7 (tasks.csv:2)'

tables "$task" '0,10,7\n10,20,7\n50,55,7'; tells 'slots that touch and end with the wheel' ''
tables "$task" '0,10,5\n10,20,7\n20,30,6'; tells "others' slots that touch the task's" ''
tables "$task" '0,10,5\n10,20,6\n20,30,5'; tells 'a task without a slot of its own' ''
tables '7,55,27,70,70,3,10,0,0\n8,0,0,0,0,0,0,0,0' ''; tells 'no slots' "tasks.csv:3: task 8: $wheel"
tables '7,55,0,0,0,9,0,0,3' '0,10,7\n10,20,7\n50,55,7'; tells 'other numbers' ''

tables "$task" '10,10,7\n20,30,7\n40,50,7'; tells '15 in the first slot' "slots.csv:2: slot 0 (owner 7) $board: $empty"
tables "$task" '0,10,7\n30,20,7\n40,50,7'; tells '15 in a middle slot' "slots.csv:3: slot 1 (owner 7) $board: $empty"
tables "$task" '0,10,7\n20,30,7\n50,40,7'; tells '15 in the last slot' "slots.csv:4: slot 2 (owner 7) $board: $empty"
tables "$task" '0,56,7\n20,30,7\n40,50,7'; tells '16 in the first slot' "slots.csv:2: slot 0 (owner 7) $board: $past"
tables "$task" '0,10,7\n20,56,7\n40,50,7'; tells '16 in a middle slot' "slots.csv:3: slot 1 (owner 7) $board: $past"
tables "$task" '0,10,7\n20,30,7\n40,56,7'; tells '16 in the last slot' "slots.csv:4: slot 2 (owner 7) $board: $past"
tables "$task" '0,10,7\n9,30,7\n40,50,7'
tells '17 in a middle slot' "slots.csv:3: slot 1 (owner 7) $board: $early (slots.csv:2, owner 7)"
tables "$task" '0,10,7\n20,30,7\n29,50,7'
tells '17 in the last slot' "slots.csv:4: slot 2 (owner 7) $board: $early (slots.csv:3, owner 7)"
tables '7,55,27,70,70,3,10,1,2' '0,30,7\n20,30,7\n40,50,7'; tells "a slot before the board's first" ''

tables "$task" '9,9,5\n20,30,7\n40,50,7'
tells "15 in another owner's slot" "slots.csv:2: slot 0 (owner 5) $board: $empty"
tables "$task" '0,10,7\n20,30,7\n40,56,65535'
tells "16 in another owner's slot" "slots.csv:4: slot 2 (owner 65535) $board: $past"
tables "$task" '0,10,7\n9,30,5\n40,50,7'
tells "17 in another owner's slot" "slots.csv:3: slot 1 (owner 5) $board: $early (slots.csv:2, owner 7)"
tables "$task" '0,10,5\n\n# the painter\n9,30,7\n40,50,7'
tells "17 against another owner's slot" "slots.csv:5: slot 1 (owner 7) $board: $early (slots.csv:2, owner 5)"
tables "$task" '0,10,5\n9,30,6\n40,50,7'
tells '17 between two others' "slots.csv:3: slot 1 (owner 6) $board: $early (slots.csv:2, owner 5)"
tables "$task" '0,10,7\n20,30,5\n15,40,7'
tells "17 behind the task's own slot" "slots.csv:4: slot 2 (owner 7) $board: $early (slots.csv:3, owner 5)"
tables '7,55,27,70,70,3,10,1,2' '0,30,5\n20,30,7\n40,50,7'; tells "another owner's slot before the board's first" ''

tables "$task" '0,10,7,10\n10,20,5,10\n50,55,7,5'; tells 'losses as long as their slots' ''
tables "$task" '0,10,7,11\n20,30,7\n40,50,7'
tells '18 in the first slot' "slots.csv:2: slot 0 (owner 7) $board: $long (loss 11, length 10)"
tables "$task" '0,10,7\n20,30,7,256\n40,50,7'
tells '18 in a middle slot' "slots.csv:3: slot 1 (owner 7) $board: $long (loss 256, length 10)"
tables "$task" '0,10,7\n20,30,7\n54,55,7,65535'
tells '18 in the last slot' "slots.csv:4: slot 2 (owner 7) $board: $long (loss 65535, length 1)"
tables "$task" '0,10,7\n20,30,5,11\n40,50,7'
tells "18 in another owner's slot" "slots.csv:3: slot 1 (owner 5) $board: $long (loss 11, length 10)"
tables "$task" '0,10,7\n10,20,7,11\n40,50,7'
tells "18 where the owner's slots touch" "slots.csv:3: slot 1 (owner 7) $board: $long (loss 11, length 10)"
tables '7,55,27,70,70,3,10,1,2' '0,30,7,31\n20,30,7\n40,50,7'; tells "a long loss before the board's first slot" ''

tables "$task" '0,10,7\n30,30,7,1\n40,50,7'; tells '15 and 18 in one slot' "slots.csv:3: slot 1 (owner 7) $board: $empty"
tables "$task" '0,10,7\n20,30,7\n40,56,7,17'; tells '16 and 18 in one slot' "slots.csv:4: slot 2 (owner 7) $board: $past"
tables "$task" '0,10,7\n9,30,7,22\n40,50,7'
tells '17 and 18 in one slot' "slots.csv:3: slot 1 (owner 7) $board: $early (slots.csv:2, owner 7)"
tables "$task" '0,10,7\n20,30,7,11\n40,40,7'
tells '18 in a slot, 15 in a later one' "slots.csv:3: slot 1 (owner 7) $board: $long (loss 11, length 10)"
tables "$task" '0,30,7\n80,70,7\n40,50,7'; tells '15 and 16 in one slot' "slots.csv:3: slot 1 (owner 7) $board: $empty"
tables "$task" '0,30,7\n20,70,7\n40,50,7'; tells '16 and 17 in one slot' "slots.csv:3: slot 1 (owner 7) $board: $past"
tables "$task" '0,30,7\n20,40,5\n50,50,7'
tells 'two bad slots' "slots.csv:3: slot 1 (owner 5) $board: $early (slots.csv:2, owner 7)"

tables "$task" '0,10,7\n20,30,7'; tells '3 by one' "tasks.csv:2: task 7: $beyond"
tables '7,55,27,70,70,3,10,65535,65535' '0,10,7'; tells '3 by far' "tasks.csv:2: task 7: $beyond"
tables '7,0,27,70,70,3,10,0,3' '0,10,7\n20,30,7'; tells '3 before 4' "tasks.csv:2: task 7: $beyond"
tables '7,0,27,70,70,3,10,0,1' '5,5,7'; tells '4 for no wheel' "tasks.csv:2: task 7: $wheel"
tables '7,16384,27,70,70,3,10,0,1\n8,16385,27,70,70,3,10,0,1' '0,10,7'
tells '4 for a large one' "tasks.csv:3: task 8: $wheel"
tables '7,2000,27,70,70,3,10,0,513\n8,2000,27,70,70,3,10,1,512\n9,2000,27,70,70,3,10,0,512' "$(slots 513)"
tells '512 records on a board, and 14 for 513' "tasks.csv:2: task 7: $many"
tables '7,1024,27,70,70,3,10,1,512' "$(slots 513)"
tells 'the last of 512 records' "slots.csv:514: slot 511 (owner 7) $board: $past"
tables '7,100,27,70,70,3,10,0,513' "$(slots 513)"; tells '14 before 16' "tasks.csv:2: task 7: $many"
tables '7,0,27,70,70,3,10,0,513' "$(slots 513)"; tells '4 before 14' "tasks.csv:2: task 7: $wheel"

tables '65535,55,27,70,70,3,10,0,1\n65536,55,27,70,70,3,10,0,1' '0,10,65535'
tells '19 by one' "tasks.csv:3: task 65536: $id"
tables '4294967295,55,27,70,70,3,10,0,1' '0,10,65535'; tells '19 by far' "tasks.csv:2: task 4294967295: $id"
tables '65543,55,27,70,70,3,10,0,2' '0,10,7'; tells '3 before 19' "tasks.csv:2: task 65543: $beyond"
tables '65543,0,27,70,70,3,10,0,1' '5,5,7'; tells '19 before 4' "tasks.csv:2: task 65543: $id"

# Lines that hold no record are counted, and a byte-order mark isn't one.
tables '\n# a sign\n7,55,27,70,70,3,10,0,3\n\n8,0,27,70,70,3,10,0,3' '\n0,10,7\n# one too long\n\n20,56,7\n40,50,7'
tells 'blank lines and comments' "slots.csv:6: slot 1 (owner 7) of the board of task 7 (tasks.csv:4): $past
tasks.csv:6: task 8: $wheel"
fresh
printf '\357\273\277# signs\n\n%s\n1,55,27,70,70,3,10,0,2' "$tasks_header" >"$folder/tasks.csv"
printf '\357\273\277%s\n11,21,1,0\n#\n33,56,1,0' "$slots_header" >"$folder/slots.csv"
tried=$((tried + 1))
"$records" make "$folder" 2>"$folder/said" || fail 'lines behind a mark: make'
said=$(sed "s|$folder/||g" "$folder/said")
[ "$said" = "slots.csv:4: slot 1 (owner 1) of the board of task 1 (tasks.csv:4): $past" ] ||
    fail "lines behind a mark: said \"$said\""

tables '7,55,27,70,70,3,10,0,3\n8,55,27,70,70,3,10,1,1\n9,60,27,70,70,3,10,0,2\n10,55,27,70,70,3,10,2,1' \
    '0,10,7\n20,56,8\n40,50,10'
tells 'a slot on three boards, bad on two' "slots.csv:3: slot 1 (owner 8) of the board of task 7 (tasks.csv:2): $past
slots.csv:3: slot 0 (owner 8) of the board of task 8 (tasks.csv:3): $past"

# More records than the first memory has room for.
tables "$(awk 'BEGIN { for (i = 0; i < 700; i++) printf "%d,2000,1,1,1,1,1,%d,1\n", i, i }')" \
    "$(slots 650)\n1300,1300,9\n$(slots 49)"
tells 'hundreds of records' "slots.csv:652: slot 0 (owner 9) of the board of task 650 (tasks.csv:652): $empty"

# A table that can't be read is complained of alone.
tried=$((tried + 1))
tables "$task" '0,10,7\n20,56,7\n40'
"$records" make "$folder" 2>"$folder/said" && fail 'a bad slot and a missing field: taken'
[ "$(cat "$folder/said")" = "$folder/slots.csv:4: field end: missing" ] || fail "a missing field: said \"$(cat "$folder/said")\""

# What can't be printed is no good end.
tried=$((tried + 2))
fresh
"$records" make "$folder" || fail 'output: make'
"$records" show "$folder" >/dev/full 2>"$folder/said" && fail 'a full output: taken'
grep -qx 'records: standard output: No space left on device' "$folder/said" || fail 'a full output: said something else'
"$records" show "$folder" >&- 2>"$folder/said" && fail 'a closed output: taken'
grep -qx 'records: standard output: Bad file descriptor' "$folder/said" || fail 'a closed output: said something else'

tried=$((tried + 1))
"$records" >/dev/null 2>&1
[ $? -eq 2 ] || fail 'usage: exit status'

echo "records-test: $tried cases, $failed failed"
[ "$failed" -eq 0 ]
