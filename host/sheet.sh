#!/bin/sh
# Prints the sheet of a site: a folder with tasks.bin and slots.bin. Where it has tables instead, tasks.csv and slots.csv, they are turned
# into those in ROOM. What is wrong with a file is said on standard error; what the program then prints is the answer all the same.
# Usage: sheet.sh SHEET RECORDS SITE ROOM
set -eu
sheet=$(realpath "$1") records=$2 site=$3 room=$4

# Why a file can't be read, in words; nothing where it can.
trouble() {
    if [ ! -e "$1" ] && [ -L "$1" ]; then echo 'a link that leads to no file'
    elif [ ! -e "$1" ]; then echo 'no such file'
    elif [ ! -f "$1" ]; then echo 'not a file'
    elif [ ! -r "$1" ]; then echo "can't be read"
    fi
}

# has_both ENDING: whether tasks and slots are there to be read; says which one isn't.
has_both() {
    both=yes
    for file in "$site/tasks.$1" "$site/slots.$1"; do
        found=$(trouble "$file")
        [ -z "$found" ] || { echo "make sheet: $file: $found" >&2; both=no; }
    done
    [ "$both" = yes ]
}

# tell_length FILE RECORD: the program takes no longer file than one of 65,536 bytes, and whole records.
tell_length() {
    bytes=$(wc -c <"$1")
    if [ "$bytes" -gt 65536 ]; then
        echo "make sheet: $1: $bytes bytes, more than 65536" >&2
    elif [ $((bytes % $2)) -ne 0 ]; then
        echo "make sheet: $1: $bytes bytes aren't whole records of $2" >&2
    fi
}

tell_lengths() {
    tell_length "$folder/tasks.bin" 32
    tell_length "$folder/slots.bin" 12
}

[ -d "$site" ] || { echo "make sheet: $site: no such folder" >&2; exit 1; }
folder=$site
if [ ! -e "$site/tasks.bin" ] && { [ -e "$site/tasks.csv" ] || [ -e "$site/slots.csv" ]; }; then
    folder=$room
    mkdir -p "$room"
    rm -f "$room/tasks.bin" "$room/slots.bin"
    if has_both csv; then
        "$records" make "$site" "$room"
        tell_lengths
    fi
elif has_both bin; then
    tell_lengths
fi
# What the program prints goes through here, so that it is said where the sheet couldn't be printed.
printed=$(CDPATH='' cd -- "$folder" && "$sheet")
[ -z "$printed" ] || printf '%s\n' "$printed" || { echo "make sheet: standard output: can't be written" >&2; exit 1; }
