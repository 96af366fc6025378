#!/bin/sh
# What second, asked, stack and halfway say of wrong words, of files that they can't use and of an output that can't be written. FOLDER
# has the programs, PROGRAM is the one that asked asks.
# Usage: complaints-test.sh FOLDER PROGRAM
set -u
programs=$(realpath "$1") questions=$(realpath "$2")
folder=$(mktemp -d) || exit 1
trap 'rm -rf "$folder"' EXIT
cd "$folder" || exit 1
tried=0 failed=0

fail() {
    failed=$((failed + 1))
    echo "complaints-test: FAILED: $1"
}

# says STATUS TEXT PROGRAM [WORD..]: the program must end with the status and say TEXT on standard error, alone.
says() {
    status=$1 text=$2 program=$3
    shift 3
    tried=$((tried + 1))
    "$programs/$program" "$@" >printed 2>said
    ended=$?
    [ "$ended" -eq "$status" ] || fail "$program $*: exit status $ended"
    [ "$(cat said)" = "$text" ] || fail "$program $*: said \"$(cat said)\", not \"$text\""
}

# unprinted PROGRAM [WORD..]: the same where what it prints can't be written.
unprinted() {
    program=$1
    shift
    tried=$((tried + 2))
    "$programs/$program" "$@" >/dev/full 2>said && fail "$program, a full output: taken"
    [ "$(cat said)" = "$program: standard output: No space left on device" ] || fail "$program, a full output: said \"$(cat said)\""
    "$programs/$program" "$@" >&- 2>said && fail "$program, a closed output: taken"
    [ "$(cat said)" = "$program: standard output: Bad file descriptor" ] || fail "$program, a closed output: said \"$(cat said)\""
}

says 2 'usage: second [INPUTS [SEED]]' second 0 2 3
for word in x -1 '' 1x 18446744073709551616; do
    says 2 "second: \"$word\" isn't a number of 64 bits" second 0 "$word"
done
says 2 "second: \"x\" isn't a number of 64 bits" second x
unprinted second 0
unprinted stack

usage='usage: asked PROGRAM FOLDER [QUESTIONS [SEED]]'
says 2 "$usage" asked
says 2 "$usage" asked "$questions" . 0 2 3
says 2 "asked: \"x\" isn't a number of 64 bits" asked "$questions" . 0 x
says 2 'asked: none/questions.bin: No such file or directory' asked "$questions" none
for file in questions.bin expected; do
    rm -rf room && mkdir room
    ln -s /dev/full "room/$file"
    says 2 "asked: room/$file: No space left on device" asked "$questions" room 1000
done
rm -rf room && mkdir room
unprinted asked "$questions" room 1

# Names are no part of a command, and no folder is looked for on the shell's path.
tried=$((tried + 1))
mkdir "it's" other "other/it's"
cp "$questions"* .
CDPATH=$folder/other "$programs/asked" "$folder/$(basename "$questions")" "it's" 100 >printed 2>&1
grep -q '^asked: 100 questions, 0 differences' printed || fail "a quote in a folder's name: said \"$(cat printed)\""

usage='usage: halfway FILE LINK COMMAND [ARGUMENT...]'
says 2 "$usage" halfway
says 2 "$usage" halfway file link
says 2 './file: No such file or directory' halfway file link true
: >file
says 2 "./file: 0 bytes aren't from 1 to 1024" halfway file link true
head -c 1025 /dev/zero >file
says 2 "./file: 1025 bytes aren't from 1 to 1024" halfway file link true

echo "complaints-test: $tried cases, $failed failed"
[ "$failed" -eq 0 ]
