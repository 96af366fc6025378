#!/bin/sh
# What the desk says of bad sites, of an output that can't be written, of an empty site, of tasks whose board is refused, of
# margins, of shared boards, and of ticks that go to the switch.
# Usage: desk-test.sh DESK RECORDS SITE
set -u
program=$1 records=$2 site=$3
. "$(dirname "$0")/tries.sh"

# slots N: N slots of a tick each, as lines of a table; every second one is task 7's.
slots() { awk -v n="$1" 'BEGIN { for (i = 0; i < n; i++) printf "%d,%d,%d\n", 2 * i, 2 * i + 1, 7 + i % 2 }'; }

# needs M E..: a task for each need, its id, as lines of a table; M of 2 strips are to be painted, on a wheel of 10 with
# one slot.
needs() {
    m=$1
    first=0
    shift
    for e in "$@"; do
        echo "$e,10,$e,5,14,$m,2,$first,1"
        first=$((first + 1))
    done
}

# eights OWNER..: that slot for each of them, as lines of a table.
eights() { for owner in "$@"; do echo "0,8,$owner"; done; }

complains_of_files
: >"$folder/tasks.bin"
prints 'an empty site' ''
: >"$folder/slots.bin"
prints 'an empty site without slots' ''
printf x >"$folder/slots.bin"
complains "slots.bin: 1 bytes aren't whole records of 12"
cp "$site/tasks.bin" "$site/slots.bin" "$folder"
complains_of_output

# The first lines of refused tasks, by number.
r3='task 7: refused with 3, first + count goes beyond the last slot record'
r4="task 7: refused with 4, the wheel w isn't from 1 to 16,384 ticks"
r6="task 7: refused with 6, the need e isn't from 1 to 1,000,000 ticks"
r14='task 7: refused with 14, the board has more than 512 slot records'
r15="task 7: refused with 15, a slot whose start isn't below its end"
r16='task 7: refused with 16, a slot whose end is above the wheel w'
r17='task 7: refused with 17, a slot whose start is below the end of the slot before it'
r18='task 7: refused with 18, a slot whose loss is above its length'
r19="refused with 19, the id isn't from 0 to 65,535"
task='7,55,27,70,70,3,10,1,3'

says '15 in the first slot' "$task" '0,55,7\n9,9,7\n20,30,7\n40,50,7' "$r15
  slots.bin, record 1 (slot 0 of the board, owner 7): from 9 to 9"
says '15 in a middle slot' "$task" '0,55,7\n0,10,7\n30,20,7\n40,50,7' "$r15
  slots.bin, record 2 (slot 1 of the board, owner 7): from 30 to 20"
says '15 in the last slot' "$task" '0,55,7\n0,10,7\n20,30,7\n50,0,7' "$r15
  slots.bin, record 3 (slot 2 of the board, owner 7): from 50 to 0"
says '16 in the first slot' "$task" '0,55,7\n0,56,7\n20,30,7\n40,50,7' "$r16
  slots.bin, record 1 (slot 0 of the board, owner 7): from 0 to 56, while w is 55"
says '16 in a middle slot' "$task" '0,55,7\n0,10,7\n20,4294967295,7\n40,50,7' "$r16
  slots.bin, record 2 (slot 1 of the board, owner 7): from 20 to 4294967295, while w is 55"
says '16 in the last slot' "$task" '0,55,7\n0,10,7\n20,30,7\n40,56,7' "$r16
  slots.bin, record 3 (slot 2 of the board, owner 7): from 40 to 56, while w is 55"
says '17 in a middle slot' "$task" '0,55,7\n0,10,7\n9,30,7\n40,50,7' "$r17
  slots.bin, record 2 (slot 1 of the board, owner 7): from 9 to 30, while slot 0, owner 7, lasts to 10"
says '17 in the last slot' "$task" '0,55,7\n0,10,7\n20,31,7\n30,50,7' "$r17
  slots.bin, record 3 (slot 2 of the board, owner 7): from 30 to 50, while slot 1, owner 7, lasts to 31"
says 'the last of 512 slots' '7,2000,27,70,70,3,10,1,512' "0,1,7\n$(slots 511)\n1020,1022,9" "$r17
  slots.bin, record 512 (slot 511 of the board, owner 9): from 1020 to 1022, while slot 510, owner 7, lasts to 1021"

says "15 in another owner's slot" "$task" '0,55,7\n0,10,7\n30,30,5\n40,50,7' "$r15
  slots.bin, record 2 (slot 1 of the board, owner 5): from 30 to 30"
says "16 in another owner's slot" "$task" '0,55,7\n0,56,65535\n20,30,7\n40,50,7' "$r16
  slots.bin, record 1 (slot 0 of the board, owner 65535): from 0 to 56, while w is 55"
says "17 against another owner's slot" "$task" '0,55,7\n0,10,5\n9,30,7\n40,50,7' "$r17
  slots.bin, record 2 (slot 1 of the board, owner 7): from 9 to 30, while slot 0, owner 5, lasts to 10"
says '17 between two others' "$task" '0,55,7\n0,10,7\n20,30,5\n29,50,6' "$r17
  slots.bin, record 3 (slot 2 of the board, owner 6): from 29 to 50, while slot 1, owner 5, lasts to 30"

says '18 in the first slot' "$task" '0,55,7\n0,10,7,11\n20,30,5\n40,50,7' "$r18
  slots.bin, record 1 (slot 0 of the board, owner 7): from 0 to 10, while its loss is 11"
says "18 in another owner's slot" "$task" '0,55,7\n0,10,7\n20,30,5,65535\n40,50,7' "$r18
  slots.bin, record 2 (slot 1 of the board, owner 5): from 20 to 30, while its loss is 65535"
says '18 in a slot that touches' "$task" '0,55,7\n0,10,7\n20,30,7\n30,40,7,11' "$r18
  slots.bin, record 3 (slot 2 of the board, owner 7): from 30 to 40, while its loss is 11"
says '17 and 18 in one slot' "$task" '0,55,7\n0,10,7\n9,30,5,22\n40,50,7' "$r17
  slots.bin, record 2 (slot 1 of the board, owner 5): from 9 to 30, while slot 0, owner 7, lasts to 10"
says '18 in a slot, 15 in a later one' "$task" '0,55,7\n0,10,7\n20,30,5,256\n40,40,7' "$r18
  slots.bin, record 2 (slot 1 of the board, owner 5): from 20 to 30, while its loss is 256"

says '15 and 16 in one slot' "$task" '0,55,7\n0,10,7\n70,60,7\n40,50,7' "$r15
  slots.bin, record 2 (slot 1 of the board, owner 7): from 70 to 60"
says '15 and 17 in one slot' "$task" '0,55,7\n0,10,7\n5,5,7\n40,50,7' "$r15
  slots.bin, record 2 (slot 1 of the board, owner 7): from 5 to 5"
says '16 and 17 in one slot' "$task" '0,55,7\n0,10,7\n5,56,7\n40,50,7' "$r16
  slots.bin, record 2 (slot 1 of the board, owner 7): from 5 to 56, while w is 55"
says '17 in a slot, 15 in a later one' "$task" '0,55,7\n0,10,7\n5,30,7\n40,40,7' "$r17
  slots.bin, record 2 (slot 1 of the board, owner 7): from 5 to 30, while slot 0, owner 7, lasts to 10"
says '16 in a slot, 15 in a later one' "$task" '0,55,7\n0,56,7\n20,30,7\n40,40,7' "$r16
  slots.bin, record 1 (slot 0 of the board, owner 7): from 0 to 56, while w is 55"

says '3' "$task" '0,10,7\n20,30,7\n40,50,7' "$r3
  tasks.bin, record 0: first 1 and count 3, while slots.bin has 3 records"
says '3 before 4' '7,0,27,70,70,3,10,65535,65535' '' "$r3
  tasks.bin, record 0: first 65535 and count 65535, while slots.bin has 0 records"
says '4' '7,16385,27,70,70,3,10,0,1' '5,5,7' "$r4
  tasks.bin, record 0: w 16385"
says '14' '7,100,27,70,70,3,10,0,513' "$(slots 513)" "$r14
  tasks.bin, record 0: count 513"
says '19' '65536,0,27,70,70,3,10,0,1\n4294967295,55,27,70,70,3,10,0,1' '0,10,65535' "task 65536: $r19
  tasks.bin, record 0: id 65536
task 4294967295: $r19
  tasks.bin, record 1: id 4294967295"
says 'a bad need' '7,55,0,70,70,3,10,1,3' '0,55,7\n0,10,7\n10,20,5\n40,55,7' "$r6"
says 'a bad slot and a bad need' '7,55,0,70,70,3,10,0,1' '0,56,7' "$r16
  slots.bin, record 0 (slot 0 of the board, owner 7): from 0 to 56, while w is 55"
says 'refused tasks and others' \
    '7,0,3,5,14,1,2,0,1\n8,10,3,5,14,1,2,0,1\n7,0,3,5,14,1,2,0,1\n7,7,3,5,14,1,2,0,1' '0,8,8' "$r4
  tasks.bin, record 0: w 0
task 8: firm, at worst 0 of 2 strips drop and 1 may, first from tick 0
  counted again from there: 0
  the first strip there has 2 ticks to spare
  a strip may need no tick more before one drops
$r4
  tasks.bin, record 2: w 0
$r16
  slots.bin, record 0 (slot 0 of the board, owner 8): from 0 to 8, while w is 7"

# Three records of 8 bytes each, without owners, have the length of two whole ones: they are read as (11,21), owner 33,
# and (43,0), owner 8.
tables '1,55,27,70,70,3,10,0,2\n2,10,4,5,14,1,2,2,1\n3,10,0,5,14,1,2,2,1' ''
printf '\013\0\0\0\025\0\0\0\041\0\0\0\053\0\0\0\0\0\0\0\010\0\0\0' >"$folder/slots.bin"
prints 'slot records without owners' "task 1: refused with 15, a slot whose start isn't below its end
  slots.bin, record 1 (slot 1 of the board, owner 8): from 43 to 0
task 2: refused with 3, first + count goes beyond the last slot record
  tasks.bin, record 1: first 2 and count 1, while slots.bin has 2 records
task 3: refused with 3, first + count goes beyond the last slot record
  tasks.bin, record 2: first 2 and count 1, while slots.bin has 2 records"

# Margins: on a wheel of 10 with the slot (0,8) the least supply within 5 ticks is 3.
none='firm, at worst 0 of 2 strips drop and 1 may, first from tick 0
  counted again from there: 0'
offer='  with 10 free slots of 1 tick'
says 'a need that grows tick by tick' "$(needs 1 1 2 3 4 5 6)" "$(eights 1 2 3 4 5 6)" "task 1: $none
  the first strip there has 4 ticks to spare
  a strip may need 2 ticks more before one drops
task 2: $none
  the first strip there has 3 ticks to spare
  a strip may need 1 tick more before one drops
task 3: $none
  the first strip there has 2 ticks to spare
  a strip may need no tick more before one drops
task 4: not firm, at worst 2 of 2 strips drop and 1 may, first from tick 4.5
  counted again from there: 2
  the first strip there lacks 0.5 ticks
  some strip lacks 1 tick
$offer: the first 9 would make it firm
task 5: not firm, at worst 2 of 2 strips drop and 1 may, first from tick 3.5
  counted again from there: 2
  the first strip there lacks 0.5 ticks
  some strip lacks 2 ticks
$offer: the first 10 would make it firm
task 6: not firm, at worst 2 of 2 strips drop and 1 may, first from tick 0
  counted again from there: 2
  the first strip there lacks 1 tick
  some strip lacks 3 ticks
$offer: no choice of the free slots makes the task firm"
both='firm, at worst 2 of 2 strips drop and 2 may, first from tick'
says 'strips that may drop, a refused task between' "$(needs 0 4 0 5)" "$(eights 4 0 5)" "task 4: $both 4.5
  counted again from there: 2
  the first strip there lacks 0.5 ticks
  some strip lacks 1 tick, but no more drop than may
task 0: refused with 6, the need e isn't from 1 to 1,000,000 ticks
task 5: $both 3.5
  counted again from there: 2
  the first strip there lacks 0.5 ticks
  some strip lacks 2 ticks, but no more drop than may"

# At the worst offset the first strip itself may be painted.
says 'a first strip with half a tick to spare' '7,4,1,2,5,1,3,0,1' '0,2,7' \
    'task 7: firm, at worst 2 of 3 strips drop and 2 may, first from tick 0.5
  counted again from there: 2
  the first strip there has 0.5 ticks to spare
  some strip lacks 1 tick, but no more drop than may'
says 'a first strip with a tick to spare' '7,10,4,5,5,1,2,0,1' '0,8,7' \
    'task 7: firm, at worst 1 of 2 strips drop and 1 may, first from tick 0
  counted again from there: 1
  the first strip there has 1 tick to spare
  some strip lacks 1 tick, but no more drop than may'
says 'a first strip with just its need' '7,10,5,5,7,1,4,0,1' '0,8,7' \
    'task 7: firm, at worst 3 of 4 strips drop and 3 may, first from tick 2.5
  counted again from there: 3
  the first strip there has nothing to spare
  some strip lacks 2 ticks, but no more drop than may'

# A need may grow to the largest one and no further; without slots a strip lacks all of it.
million='1000000,1000000,1,2'
says 'almost the largest need to grow' "7,1,1,$million,0,1" '0,1,7' "task 7: $none
  the first strip there has 999999 ticks to spare
  a strip may need 999999 ticks more before one drops"
says 'a tick below the largest need' "7,1,999999,$million,0,1" '0,1,7' "task 7: $none
  the first strip there has 1 tick to spare
  a strip may need 1 tick more before one drops"
says 'the largest need' "7,1,1000000,$million,0,1" '0,1,7' "task 7: $none
  the first strip there has nothing to spare
  a strip may need no tick more before one drops"
says 'a tick above the largest need' "7,1,1000001,$million,0,1" '0,1,7' "$r6"
says 'the largest need without slots' "7,10,1000000,$million,0,0" '' \
    "task 7: not firm, at worst 2 of 2 strips drop and 1 may, first from tick 0
  counted again from there: 2
  the first strip there lacks 1000000 ticks
  some strip lacks 1000000 ticks
$offer: the first 10 would make it firm"


# Others' slots: a task is told what it has of the board, answered by its own slots alone, and offered what no other
# owner has.
shared='7,10,4,5,14,1,2'
worst='task 7: not firm, at worst 2 of 2 strips drop and 1 may, first from tick 4.5
  counted again from there: 2
  the first strip there lacks 0.5 ticks
  some strip lacks 1 tick'
says 'a board to itself' "$shared,0,2" '0,4,7\n4,8,7' "$worst
$offer: the first 9 would make it firm"
says 'a board with another owner behind' "$shared,0,3" '0,4,7\n4,8,7\n8,9,5' "$worst
  of the board's slots it has 2 of 3, of the ticks 8 of 10
  with 9 free slots of 1 tick: the first 9 would make it firm"
says 'a part of the table with another owner behind' "$shared,1,3" '0,10,5\n0,4,7\n4,8,7\n9,10,5' "$worst
  of the board's slots it has 2 of 3, of the ticks 8 of 10
  with 9 free slots of 1 tick: the first 9 would make it firm"
says 'a board that is full' "$shared,0,2" '0,8,7\n8,10,5' "$worst
  of the board's slots it has 1 of 2, of the ticks 8 of 10
  with 8 free slots of 1 tick: no choice of the free slots makes the task firm"
says 'a task without a slot of its own' "$shared,0,1" '0,8,5' \
    "task 7: not firm, at worst 2 of 2 strips drop and 1 may, first from tick 0
  counted again from there: 2
  the first strip there lacks 4 ticks
  some strip lacks 4 ticks
  of the board's slots it has 0 of 1, of the ticks 0 of 10
  with 2 free slots of 1 tick: no choice of the free slots makes the task firm"
says 'a firm task among others' "7,10,3,5,14,1,2,0,3" '0,8,7\n8,9,5\n9,10,6' "task 7: $none
  the first strip there has 2 ticks to spare
  a strip may need no tick more before one drops
  of the board's slots it has 1 of 3, of the ticks 8 of 10"

# Equal slots of 2 ticks: one of which another owner has a tick is taken, one that its slot only touches is free.
says 'free slots beside others' '7,128,2,2,2,2,2,0,4' '0,1,7\n2,4,5\n7,8,5\n12,13,5' \
    "task 7: not firm, at worst 2 of 2 strips drop and 0 may, first from tick 0
  counted again from there: 2
  the first strip there lacks 1 tick
  some strip lacks 2 ticks
  of the board's slots it has 1 of 4, of the ticks 1 of 128
  with 61 free slots of 2 ticks: no choice of the free slots makes the task firm"
says 'one free slot' '7,2,1,1,1,1,1,0,1' '1,2,5' \
    "task 7: not firm, at worst 1 of 1 strips drop and 0 may, first from tick 0
  counted again from there: 1
  the first strip there lacks 1 tick
  some strip lacks 1 tick
  of the board's slots it has 0 of 1, of the ticks 0 of 2
  with 1 free slot of 1 tick: no choice of the free slots makes the task firm"

# Ticks that go to the switch: named where there are some, and the slot loses none where it goes on from the task's own.
to='slot ticks in each turn'
says 'a slot that loses a tick, and one that starts later' '7,10,3,5,14,1,2,0,1\n7,10,3,5,14,1,2,1,1' '0,8,7,1\n1,8,7' \
    "task 7: firm, at worst 1 of 2 strips drop and 1 may, first from tick 1.5
  counted again from there: 1
  the first strip there has 2 ticks to spare
  some strip lacks 1 tick, but no more drop than may
  1 of its 8 $to goes to the switch: 1 in slot (0,8)
task 7: firm, at worst 1 of 2 strips drop and 1 may, first from tick 1.5
  counted again from there: 1
  the first strip there has 2 ticks to spare
  some strip lacks 1 tick, but no more drop than may"
says 'a slot that loses all its ticks' '7,10,3,5,14,1,2,0,1' '0,8,7,8' \
    "task 7: not firm, at worst 2 of 2 strips drop and 1 may, first from tick 0
  counted again from there: 2
  the first strip there lacks 3 ticks
  some strip lacks 3 ticks
  8 of its 8 $to go to the switch: 8 in slot (0,8)
  with 1 free slot of 10 ticks and a loss of 8: the first 1 would make it firm"
says 'a pair that touches' "$shared,0,2" '0,4,7\n4,8,7,4' "$worst
  with 2 free slots of 5 ticks and a loss of 4: the first 2 would make it firm"
says 'a pair that touches round the end' '7,10,3,5,14,1,2,0,2' '0,3,7,3\n5,10,7,2' \
    "task 7: not firm, at worst 2 of 2 strips drop and 1 may, first from tick 0.5
  counted again from there: 2
  the first strip there lacks 0.5 ticks
  some strip lacks 2 ticks
  2 of its 8 $to go to the switch: 2 in slot (5,10)
  with 2 free slots of 5 ticks and a loss of 3: the first 2 would make it firm"
whole="task 7: $none
  the first strip there has 2 ticks to spare
  a strip may need 2 ticks more before one drops"
says 'a slot that fills the wheel' '7,10,3,5,14,1,2,0,1' '0,10,7,10' "$whole"
says 'a pair that fills the wheel' '7,10,3,5,14,1,2,0,2' '0,4,7,4\n4,10,7,6' "$whole"
says 'a slot behind one that loses all' '7,10,2,5,14,1,2,0,2' '2,4,7,2\n4,9,7,5' \
    "task 7: firm, at worst 1 of 2 strips drop and 1 may, first from tick 0
  counted again from there: 1
  the first strip there lacks 1 tick
  some strip lacks 2 ticks, but no more drop than may
  2 of its 7 $to go to the switch: 2 in slot (2,4)"

# Another owner's slot, one outside the board, or one that ends before the wheel does is none to go on from.
later='task 7: firm, at worst 1 of 2 strips drop and 1 may, first from tick 2.5
  counted again from there: 1
  the first strip there has 2.5 ticks to spare
  some strip lacks 2 ticks, but no more drop than may'
says "a slot behind another owner's" '7,10,2,5,14,1,2,0,2' '0,2,5,2\n2,8,7,1' "$later
  of the board's slots it has 1 of 2, of the ticks 6 of 10
  1 of its 6 $to goes to the switch: 1 in slot (2,8)"
says "a slot behind one that isn't the board's" '7,10,2,5,14,1,2,1,1' '0,2,7\n2,8,7,1' "$later
  1 of its 6 $to goes to the switch: 1 in slot (2,8)"
says 'another owner round the end' '7,10,2,5,14,1,2,0,3' '0,4,7,1\n4,8,7,1\n8,10,5,1' "task 7: $none
  the first strip there has 2 ticks to spare
  a strip may need no tick more before one drops
  of the board's slots it has 2 of 3, of the ticks 8 of 10
  1 of its 8 $to goes to the switch: 1 in slot (0,4)"
says 'a last slot that ends before the wheel' '7,10,2,5,14,1,2,0,2' '0,3,7,1\n5,9,7,1' "task 7: $none
  the first strip there has nothing to spare
  a strip may need no tick more before one drops
  2 of its 7 $to go to the switch: 1 in slot (0,3), 1 in slot (5,9)"
says 'losses of some slots' '7,12,2,6,14,1,2,0,5' '0,2,7,1\n3,5,7,2\n5,6,7,1\n7,9,7\n10,11,7,1' \
    "task 7: not firm, at worst 2 of 2 strips drop and 1 may, first from tick 8.5
  counted again from there: 2
  the first strip there lacks 0.5 ticks
  some strip lacks 1 tick
  4 of its 8 $to go to the switch: 1 in slot (0,2), 2 in slot (3,5), 1 in slot (10,11)
  with 6 free slots of 2 ticks and a loss of 2: the first 5 would make it firm"
says "an offer with another owner's loss" "$shared,0,3" '0,4,7\n4,8,7\n8,9,5,1' "$worst
  of the board's slots it has 2 of 3, of the ticks 8 of 10
  with 9 free slots of 1 tick and a loss of 1: no choice of the free slots makes the task firm"
says 'as many slots as a board may have' '7,1024,1,2,2,1,1,0,512' "$(slots 512 | sed 's/,8$/,7/')" \
    'task 7: firm, at worst 0 of 1 strips drop and 0 may, first from tick 0
  counted again from there: 0
  the first strip there has nothing to spare
  a strip may need no tick more before one drops'

ends
