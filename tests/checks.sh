# For scripts that build a program in C over the archive and end with their numbers: tests/commonmark.sh, tests/preview.sh and compare/cmark.sh read it at the
# repository's root.
archive=target/staticlib/libforingamo.a

# ends PASSED FAILED: the last line, and the status.
ends() {
    echo "$1 passed, $2 failed"
    [ "$2" -eq 0 ]
    exit
}

# compiles SOURCE PROGRAM [OPTION..]: over the archive, which is built where it must be; ends where it cannot.
compiles() {
    local source=$1 program=$2
    shift 2
    if ! scripts/archive.sh 2>&1; then
        echo "there is no $archive of these sources to link"
        ends 0 1
    fi
    if ! cc -std=c11 -O2 -Wall -Wextra -Wpedantic -Werror -Iinclude -o "$program" "$source" "$archive" "$@"; then
        echo "$source: not compiled"
        ends 0 1
    fi
}

# runs SOURCE PROGRAM [ARGUMENT..]: shows what the program writes, and ends with its numbers.
runs() {
    local source=$1 program=$2 status good bad
    shift 2
    "$program" "$@" >"$program.txt"
    status=$?
    if [[ ! $(tail -n 1 "$program.txt") =~ ^([0-9]+)\ passed,\ ([0-9]+)\ failed$ ]]; then
        cat "$program.txt"
        echo "$source: the program ended with status $status and without its numbers"
        ends 0 1
    fi
    good=${BASH_REMATCH[1]}
    bad=${BASH_REMATCH[2]}
    sed '$d' "$program.txt"
    if [ "$status" -ne 0 ] && [ "$bad" -eq 0 ]; then
        echo "$source: the program ended with status $status"
        bad=1
    fi
    ends "$good" "$bad"
}
