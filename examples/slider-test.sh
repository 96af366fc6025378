#!/bin/sh
# What the slider says of wrong words and bad sites, of an output that can't be written, of values that are refused, and at the
# ends of its ranges.
# Usage: slider-test.sh SLIDER RECORDS SITE
set -u
program=$1 records=$2 site=$3
. "$(dirname "$0")/tries.sh"

# usage [WORD..]: these words aren't the program's; it must say so and give 2.
usage() {
    tried=$((tried + 1))
    "$program" "$@" >"$folder/said" 2>&1
    status=$?
    [ "$status" -eq 2 ] || fail "\"$*\": exit status $status"
    grep -q '^usage: slider FOLDER ID e$' "$folder/said" || fail "\"$*\": said \"$(cat "$folder/said")\""
}

usage
usage "$site"
usage "$site" 1
usage "$site" 1 h
usage "$site" 1 e 0
usage "$site" 1 end
usage "$site" 1 end 0 0
usage "$site" 1 loss
usage "$site" 1 loss 0 0
usage "$site" 1 D 0

complains_of_files 1 e
cp "$site/tasks.bin" "$folder"
complains_of_output 1 e
for id in 4 01x x -1 +1 ' 1' '' 4294967297 18446744073709551617; do
    complains "tasks.bin: no task has the id $id" "$id" e
done
for place in 2 x -1 '' 65536 4294967296 18446744073709551616; do
    complains "slots.bin: the board has no slot $place" 1 end "$place"
done
complains "slots.bin: slot 0 of the board is owner 2's" 3 end 0
complains 'slots.bin: the board has no slot 2' 1 loss 2
complains "slots.bin: slot 0 of the board is owner 2's" 3 loss 0

# T of the rules: of two strips one may drop. Any 5 ticks hold 3 of its slot.
task='7,10,4,5,14,1,2'
board='0,8,7'
tables "$task,0,2" "$board"
complains 'slots.bin: first + count goes beyond the last slot record' 7 end 0
prints 'a board beyond the records' 'task 7: e is 4
  e 1 to 5: refused with 3, first + count goes beyond the last slot record' 7 e
says 'a need' "$task,0,1" "$board" 'task 7: e is 4
  e 1 to 3: firm
  e 4 to 5: not firm' 7 e
says 'a need of the first of two tasks' "$task,0,1\n7,10,4,5,14,0,2,0,1" "$board" 'task 7: e is 4
  e 1 to 3: firm
  e 4 to 5: not firm' 7 e
says 'a need of the second task' "8,$task,0\n$task,0,1" "$board" 'task 7: e is 4
  e 1 to 3: firm
  e 4 to 5: not firm' 7 e
says 'a need where all strips may drop' '7,10,4,5,14,0,2,0,1' "$board" 'task 7: e is 4
  e 1 to 5: firm' 7 e
says 'a need that is refused now' '7,10,0,5,14,1,2,0,1' "$board" 'task 7: e is 0
  e 1 to 3: firm
  e 4 to 5: not firm' 7 e
says 'a deadline that is refused now' '7,10,4,15,14,1,2,0,1' "$board" 'task 7: D is 15
  D 1 to 5: not firm
  D 6 to 14: firm' 7 D

# What is refused whatever the value is; a range without values has one.
says 'a need with a bad deadline' '7,10,4,0,14,1,2,0,1' "$board" "task 7: e is 4
  e 1: refused with 8, the deadline D isn't from 1 to h ticks" 7 e
says 'a deadline with a bad period' '7,10,4,5,0,1,2,0,1' "$board" "task 7: D is 5
  D 1: refused with 7, the period h isn't from 1 to 1,000,000 ticks" 7 D
says 'a need with an endless deadline' '7,10,4,4294967295,14,1,2,0,1' "$board" "task 7: e is 4
  e 1 to 1000000: refused with 8, the deadline D isn't from 1 to h ticks" 7 e
says 'an end with an endless wheel' '7,4294967295,4,5,14,1,2,0,1' "$board" "task 7: end is 8
  end 1 to 16384: refused with 4, the wheel w isn't from 1 to 16,384 ticks" 7 end 0

# An end goes to the wheel's end or to the next slot of the board, whoever owns that; a bad one is mended on the way.
says 'an end' "$task,0,1" "$board" 'task 7: end is 8
  end 1 to 8: not firm
  end 9 to 10: firm' 7 end 0
says "an end before another's slot" "$task,1,2" '0,10,7\n0,8,7\n9,10,5\n0,1,7' 'task 7: end is 8
  end 1 to 8: not firm
  end 9: firm' 7 end 0
says 'an end past the next slot' "$task,0,2" '0,6,7\n5,8,7' 'task 7: end is 6
  end 1 to 5: not firm' 7 end 0
says 'an end past the wheel' "$task,0,2" '0,5,7\n5,11,7' 'task 7: end is 11
  end 6 to 8: not firm
  end 9 to 10: firm' 7 end 1
says 'an end before a start' "$task,0,1" '2,1,7' 'task 7: end is 1
  end 3 to 10: not firm' 7 end 0
says 'a slot behind the wheel' "$task,0,1" '10,10,7' 'task 7: end is 10
  end 11: refused with 16, a slot whose end is above the wheel w' 7 end 0
says "an end beside another's bad slot" "$task,0,2" '0,7,7\n8,8,5' "task 7: end is 7
  end 1 to 8: refused with 15, a slot whose start isn't below its end" 7 end 0
says "an end beside another's long loss" "$task,0,2" '0,7,7\n8,9,5,2' 'task 7: end is 7
  end 1 to 8: refused with 18, a slot whose loss is above its length' 7 end 0

# An end nearer than the slot's loss is refused. Where it comes to a slot of the same owner, that one loses nothing any more.
lower='7,10,3,5,14,1,2'
says 'an end too near for the loss, and the wheel filled' "$lower,0,1" '0,8,7,3' 'task 7: end is 8
  end 1 to 2: refused with 18, a slot whose loss is above its length
  end 3 to 9: not firm
  end 10: firm' 7 end 0
says "an end that comes to the task's next slot" "$task,0,2" '0,3,7\n5,10,7,2' 'task 7: end is 3
  end 1 to 4: not firm
  end 5: firm' 7 end 0
says "an end that comes to the task's first slot" "$lower,0,2" '0,4,7,3\n4,8,7' 'task 7: end is 8
  end 5 to 9: not firm
  end 10: firm' 7 end 1

# A loss goes to the slot's length, and the record behind it stays as it is. Without a switch it takes nothing.
says 'a loss' "$lower,0,1" '0,8,7' 'task 7: loss is 0
  loss 0 to 1: firm
  loss 2 to 8: not firm' 7 loss 0
says 'a loss that is refused now' "$lower,0,1" '0,8,7,65535' 'task 7: loss is 65535
  loss 0 to 1: firm
  loss 2 to 8: not firm' 7 loss 0
says 'a loss beside other slots' '7,10,2,5,14,1,2,0,3' '0,5,7\n6,8,5,2\n8,9,7,1' 'task 7: loss is 0
  loss 0: firm
  loss 1 to 5: not firm' 7 loss 0
says 'a loss of the shortest slot' '7,10,2,5,14,1,2,0,3' '0,5,7\n6,8,5,2\n8,9,7,1' 'task 7: loss is 1
  loss 0 to 1: firm' 7 loss 2
says 'a loss of a slot that touches' "$task,0,2" '0,4,7\n4,9,7' 'task 7: loss is 0
  loss 0 to 5: firm' 7 loss 1
says 'a loss of a slot that touches round the end' "$task,0,2" '0,4,7,4\n4,10,7,6' 'task 7: loss is 4
  loss 0 to 4: firm' 7 loss 0
says 'a loss of a slot that touches nothing round the end' "$task,0,2" '0,4,7,4\n4,9,7,5' 'task 7: loss is 4
  loss 0: firm
  loss 1 to 4: not firm' 7 loss 0
says 'a loss of a slot that fills the wheel' "$task,0,1" '0,10,7,3' 'task 7: loss is 3
  loss 0 to 10: firm' 7 loss 0
empty="refused with 15, a slot whose start isn't below its end"
says 'a loss of an empty slot' "$task,0,1" '8,8,7' "task 7: loss is 0
  loss 0: $empty" 7 loss 0
says 'a loss of a slot that ends before its start' "$task,0,1" '8,2,7,1' "task 7: loss is 1
  loss 0: $empty" 7 loss 0
says 'a loss of an endless slot' "$task,0,1" '0,4294967295,7,5' 'task 7: loss is 5
  loss 0 to 16384: refused with 16, a slot whose end is above the wheel w' 7 loss 0

ends
