#!/usr/bin/env bash
# The C interface, as a user links it: the examples in C and in Rust write what examples/expected.txt has, tests/interface.c walks the refusals and the readings,
# tests/filter.c the tag filter, tests/long.c long bulletins, tests/conversion.c old traces across and back, tests/spans.c finding and showing, tests/editions.c
# bulletins with other private pieces, and the Rust package in rust/ passes its tests without a warning, built by cargo and by rustc alone. The archive needs no
# name from outside.
#
#     tests/interface.sh
#
# It links target/staticlib/libforingamo.a, which scripts/archive.sh builds where it is not there or is older than its sources; a line says so. Where there is no cc, no
# rustc or no cargo, a line says what is left out. A line for each check that fails; the last line is 'N passed, M failed'.
cd "$(dirname "$0")/.." || exit 1
archive=target/staticlib/libforingamo.a
built=target/interface
unset FORINGAMO_LIB_DIR

passed=0
failed=0

fails() {
    echo "$1"
    failed=$((failed + 1))
}

# prints WHAT PROGRAM: the program writes what examples/expected.txt has.
prints() {
    if ! "$2" >"$built/printed"; then
        fails "$1: the program ended with a status other than 0"
    elif ! cmp -s "$built/printed" examples/expected.txt; then
        fails "$1: standard output differs from examples/expected.txt"
    else
        passed=$((passed + 1))
    fi
}

# walks WHAT PROGRAM: the program checks on its own; its last line has the numbers.
walks() {
    local status
    "$2" >"$built/walked"
    status=$?
    if [[ ! $(tail -n 1 "$built/walked") =~ ^([0-9]+)\ passed,\ ([0-9]+)\ failed$ ]]; then
        fails "$1: the program ended with status $status and without its numbers"
        return
    fi
    passed=$((passed + BASH_REMATCH[1]))
    failed=$((failed + BASH_REMATCH[2]))
    sed '$d' "$built/walked"
    if [ "$status" -ne 0 ] && [ "${BASH_REMATCH[2]}" -eq 0 ]; then
        fails "$1: the program ended with status $status"
    fi
}

compile_c() {
    cc -std=c11 -O2 -Wall -Wextra -Wpedantic -Werror -Iinclude -o "$2" "$1" "$archive"
}

compile_rust() {
    rustc --edition 2021 -O -D warnings --crate-name foringamo --crate-type rlib -L "$(dirname "$archive")" --out-dir "$built" rust/src/lib.rs &&
        rustc --edition 2021 -O -D warnings --extern foringamo="$built/libforingamo.rlib" -o "$2" "$1"
}

# package COMMAND..: cargo on the package in rust/. Every warning is an error.
package() {
    local command=$1
    shift
    CARGO_TARGET_DIR=target/cargo RUSTFLAGS='-D warnings' RUSTDOCFLAGS='-D warnings' \
        cargo "$command" --offline --quiet --manifest-path rust/Cargo.toml "$@"
}

# tests_package: cargo's tests, by the numbers that it writes for the library, for tests/ and for the comments.
tests_package() {
    local status line good=0 bad=0
    package test >"$built/tested" 2>&1
    status=$?
    while read -r line; do
        if [[ $line =~ ^test\ result:\ .*\ ([0-9]+)\ passed\;\ ([0-9]+)\ failed\; ]]; then
            good=$((good + BASH_REMATCH[1]))
            bad=$((bad + BASH_REMATCH[2]))
        fi
    done <"$built/tested"
    passed=$((passed + good))
    failed=$((failed + bad))
    if [ "$status" -ne 0 ] || [ "$good" -eq 0 ]; then
        cat "$built/tested"
        [ "$bad" -ne 0 ] || fails "cargo test ended with status $status and $good tests"
    fi
}

# finds_archive: an archive in another folder is linked where FORINGAMO_LIB_DIR names that; where it has none, cargo says so and ends.
finds_archive() {
    mkdir -p "$built/elsewhere" "$built/empty" && cp "$archive" "$built/elsewhere/" || exit 1
    if FORINGAMO_LIB_DIR=$PWD/$built/elsewhere package build 2>"$built/found"; then
        passed=$((passed + 1))
    else
        cat "$built/found"
        fails 'FORINGAMO_LIB_DIR: the archive is not found'
    fi
    if FORINGAMO_LIB_DIR=$PWD/$built/empty package build 2>"$built/found"; then
        fails 'FORINGAMO_LIB_DIR names a folder without the archive, and cargo does not mind'
    elif ! grep -q "FORINGAMO_LIB_DIR is set, and there is no .*/empty/libforingamo.a" "$built/found"; then
        cat "$built/found"
        fails 'FORINGAMO_LIB_DIR names a folder without the archive, and cargo does not say so'
    else
        passed=$((passed + 1))
    fi
}

# needs_nothing: the archive calls nothing from outside, not even memcpy or memmove, so it links where there is no C library.
needs_nothing() {
    local names
    if ! names=$(nm -u "$archive"); then
        fails 'nm cannot read the archive'
    elif grep -q ' U ' <<<"$names"; then
        echo "$names"
        fails 'the archive needs names from outside'
    else
        passed=$((passed + 1))
    fi
}

run_example() {
    package run --example example
}

in_c() {
    needs_nothing
    if compile_c examples/example.c "$built/example_c"; then
        prints examples/example.c "$built/example_c"
    else
        fails 'examples/example.c: not compiled'
    fi
    local program
    for program in interface filter long conversion spans editions; do
        if compile_c "tests/$program.c" "$built/$program"; then
            walks "tests/$program.c" "$built/$program"
        else
            fails "tests/$program.c: not compiled"
        fi
    done
}

in_rust() {
    if ! command -v rustc >/dev/null; then
        echo 'there is no rustc: the package in rust/ is left out'
        return
    fi
    if compile_rust rust/examples/example.rs "$built/example_rust"; then
        prints 'rust/examples/example.rs by rustc' "$built/example_rust"
    else
        fails 'rust/examples/example.rs: not compiled by rustc'
    fi
    if ! command -v cargo >/dev/null; then
        echo 'there is no cargo: the tests of the package in rust/ are left out'
        return
    fi
    tests_package
    prints 'rust/examples/example.rs by cargo' run_example
    finds_archive
}

mkdir -p "$built" || exit 1
if ! scripts/archive.sh 2>&1; then
    fails "there is no $archive of these sources to link"
elif ! command -v cc >/dev/null; then
    # Rust's programs are linked by it too.
    echo 'there is no cc: the examples, interface, filter, long, conversion, spans and editions of tests/, and the package in rust/ are left out'
else
    in_c
    in_rust
fi

echo "$passed passed, $failed failed"
[ "$failed" -eq 0 ]
