#!/usr/bin/env bash
# CommonMark's examples of raw HTML, through the C interface: tests/commonmark.c runs the entries of tests/commonmark.txt, in both readings.
#
#     tests/commonmark.sh
#
# It links target/staticlib/libforingamo.a, which scripts/archive.sh builds where it is not there or is older than its sources; a line says so. Where there is no cc, a
# line says what is left out. A line for each check that fails, then how many examples were run; the last line is 'N passed, M failed'.
cd "$(dirname "$0")/.." || exit 1
. tests/checks.sh
built=target/commonmark

mkdir -p "$built" || exit 1
if ! command -v cc >/dev/null; then
    echo 'there is no cc: tests/commonmark.c is left out'
    ends 0 0
fi
compiles tests/commonmark.c "$built/commonmark"
runs tests/commonmark.c "$built/commonmark" tests/commonmark.txt
