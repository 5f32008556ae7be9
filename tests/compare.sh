# What tests/check and examples/check share. It is read at the top of the repository, with `. tests/compare.sh`.

# Builds the programs where they have to be, and makes a folder for what they write.
begin() {
    ./rawgrid --version >/dev/null || exit 1
    ./rawlive --version >/dev/null || exit 1
    program=crates/rawgrid/out/rawgrid
    seen="${TMPDIR:-/tmp}/rawgrid-check.$$"
    mkdir "$seen" || exit 1
    trap 'rm -rf "$seen"' EXIT
    trap 'exit 1' HUP INT TERM
    count=0
    differ=0
}

# Tells where a file that was written differs from the one that is due: tell_other NAME WHAT DUE SEEN
tell_other() {
    printf '%s\n' "$1: another $2, < is due, > was written"
    diff "$3" "$4" | head -n 10
}

# Runs the program on this standard input and compares what it did with what is due:
# compare NAME STATUS OUT ERR WORD.., where OUT and ERR are files, and the words are those of the program.
compare() {
    name=$1 status=$2 out=$3 err=$4
    shift 4
    "$program" "$@" >"$seen/out" 2>"$seen/err"
    got=$?
    count=$((count + 1))
    [ "$got" -eq "$status" ] && cmp -s "$out" "$seen/out" && cmp -s "$err" "$seen/err" && return
    differ=$((differ + 1))
    [ "$got" -eq "$status" ] || printf '%s\n' "$name: status $got, due is $status"
    cmp -s "$out" "$seen/out" || tell_other "$name" "standard output" "$out" "$seen/out"
    cmp -s "$err" "$seen/err" || tell_other "$name" "standard error" "$err" "$seen/err"
}

# Prints how many were run and how many differ, and ends with status 1 where one does: finish WHAT
finish() {
    echo "$count $1, $differ differ"
    [ "$differ" -eq 0 ]
}
