#!/usr/bin/env bash
# The standard reading against CommonMark's own parser in C, libcmark, on random texts: compare/cmark/cmark.c, whose head tells what is compared.
#
#     compare/cmark.sh [--seed N] [--count N]
#
# The seed is 1 and the count of texts of each kind 400,000 where none is given, which takes some 15 seconds. It links target/staticlib/libforingamo.a, which
# scripts/archive.sh builds where it is not there or is older than its sources; a line says so. Where there is no cc, or no libcmark with its header, a line
# says 'not compared'. The last line is 'N passed, M failed', one for each kind of comparison.
#
# First comes a control: with the Rust's reading in place of the standard's no kind of comparison may pass.
cd "$(dirname "$0")/.." || exit 1
. tests/checks.sh
built=target/cmark
control_count=20000

mkdir -p "$built" || exit 1
if ! cc -x c -o "$built/there" - -lcmark 2>/dev/null <<<'#include <cmark.h>
int main(void) { return cmark_version() == 0; }'; then
    echo 'there is no libcmark: not compared'
    ends 0 0
fi
compiles compare/cmark/cmark.c "$built/control" -lcmark -Dforingamo_standard_block_scan=foringamo_block_scan \
    -Dforingamo_standard_inline_scan=foringamo_inline_scan -Dforingamo_standard_withhold=foringamo_withhold -Dforingamo_standard_find=foringamo_find
control=$("$built/control" --count "$control_count" | tail -n 1)
echo "with the Rust's reading in its place: $control"
if [[ ! $control =~ ^0\ passed,\ [1-9][0-9]*\ failed$ ]]; then
    echo 'the control does not fail as it must'
    ends 0 1
fi
compiles compare/cmark/cmark.c "$built/cmark" -lcmark
runs compare/cmark/cmark.c "$built/cmark" "$@"
