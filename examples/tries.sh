# What the test scripts here have in common; they source it. They set `program`, `records`, which makes records from
# tables, and `site`, a folder of records. A case is tried in a folder of its own, which goes away again.
folder=$(mktemp -d) || exit 1
trap 'rm -rf "$folder"' EXIT
tried=0 failed=0 script=$(basename "$0" .sh)

fail() {
    failed=$((failed + 1))
    echo "$script: FAILED: $1"
}

# complains TEXT [WORD..]: the program must fail on the folder, given these words as well, and say TEXT.
complains() {
    text=$1
    shift
    tried=$((tried + 1))
    if "$program" "$folder" "$@" >/dev/null 2>"$folder/said"; then
        fail "taken, without \"$text\""
    elif ! grep -qF -- "$text" "$folder/said"; then
        fail "said \"$(cat "$folder/said")\", not \"$text\""
    fi
}

# complains_of_files [WORD..]: the same of files that are missing, that are folders, links in a circle or without an end, and
# of records that aren't whole.
complains_of_files() {
    complains 'tasks.bin: No such file' "$@"
    cp "$site/tasks.bin" "$folder"
    complains 'slots.bin: No such file' "$@"
    mkdir "$folder/slots.bin"
    complains 'slots.bin: Is a directory' "$@"
    rmdir "$folder/slots.bin"
    ln -s slots.bin "$folder/slots.bin"
    complains 'slots.bin: Too many levels of symbolic links' "$@"
    ln -sf /dev/zero "$folder/slots.bin"
    complains 'slots.bin: File too large' "$@"
    rm "$folder/slots.bin"
    cp "$site/slots.bin" "$folder"
    printf x >>"$folder/slots.bin"
    complains "slots.bin: 37 bytes aren't whole records of 12" "$@"
    cp "$site/slots.bin" "$folder"
    printf x >>"$folder/tasks.bin"
    complains "tasks.bin: 97 bytes aren't whole records of 32" "$@"
}

# complains_of_output [WORD..]: the program, given these words as well, must fail on a good folder and say why where what it
# prints can't be written.
complains_of_output() {
    tried=$((tried + 2))
    said="$(basename "$program"): standard output"
    "$program" "$folder" "$@" >/dev/full 2>"$folder/said" && fail 'a full output: taken'
    [ "$(cat "$folder/said")" = "$said: No space left on device" ] || fail "a full output: said \"$(cat "$folder/said")\""
    "$program" "$folder" "$@" >&- 2>"$folder/said" && fail 'a closed output: taken'
    [ "$(cat "$folder/said")" = "$said: Bad file descriptor" ] || fail "a closed output: said \"$(cat "$folder/said")\""
}

# tables TASKS SLOTS: the folder becomes the site with these lines, \n between them, in its tables. A slot of three numbers
# loses nothing.
tables() {
    printf 'id,w,e,D,h,m,k,first,count\n%b\n' "$1" >"$folder/tasks.csv"
    printf 'start,end,owner,loss\n%b\n' "$2" | sed 's/^[0-9]*,[0-9]*,[0-9]*$/&,0/' >"$folder/slots.csv"
    "$records" make "$folder" 2>/dev/null
}

# prints NAME TEXT [WORD..]: of the folder the program, given these words as well, must print TEXT, in which the folder's
# name is left out, say nothing else and end well.
prints() {
    name=$1 text=$2
    shift 2
    tried=$((tried + 1))
    if ! "$program" "$folder" "$@" >"$folder/said" 2>&1; then
        fail "$name: refused, saying \"$(cat "$folder/said")\""
    elif [ "$(sed "s|$folder/||g" "$folder/said")" != "$text" ]; then
        fail "$name: said \"$(cat "$folder/said")\", not \"$text\""
    fi
}

# says NAME TASKS SLOTS TEXT [WORD..]: both of these.
says() {
    tables "$2" "$3"
    name=$1 text=$4
    shift 4
    prints "$name" "$text" "$@"
}

# ends: the last line of a script.
ends() {
    echo "$script: $tried cases, $failed failed"
    [ "$failed" -eq 0 ]
}
