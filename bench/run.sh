#!/usr/bin/env bash
# Measures what calls take, and prints the tables of docs/BENCHMARK.md.
#
#     bench/run.sh [PROGRAM..]
#
# PROGRAM is compare: the scans, withholding and the tag filter, of the library and of the Rust; or long: calls of the library by length, up to its limit. Both where
# none is given, two to three minutes. It ends with status 1 where a call breaks one of long's bounds.
#
# It needs rustc and cc, and target/staticlib/libforingamo.a, which scripts/archive.sh builds where it is not there or is older than its sources. Where the Rust crate's
# sources are not in $FORINGAMO_RUST_SOURCES, or where that is not set in ../shared/docs/src, compare measures the library alone.
cd "$(dirname "$0")/.." || exit 1
archive=target/staticlib/libforingamo.a
built=target/bench

programs=("$@")
[ $# -gt 0 ] || programs=(compare long)
for program in "${programs[@]}"; do
    case $program in
    compare | long) ;;
    *)
        echo 'bench/run.sh [compare|long]' >&2
        exit 1
        ;;
    esac
done
command -v rustc >/dev/null || {
    echo 'there is no rustc: nothing is measured' >&2
    exit 1
}
mkdir -p "$built" || exit 1
scripts/archive.sh >&2 || exit 1

compile() {
    rustc --edition 2021 -O -C codegen-units=1 -D warnings -L "$(dirname "$archive")" "$@" || exit 1
}

# The Rust, for compare.
with=(--check-cfg 'cfg(reference)')
reference() {
    local sources=${FORINGAMO_RUST_SOURCES:-../shared/docs/src}
    if [ ! -d "$sources/src" ]; then
        echo "the Rust crate's files are not in $sources: the library is measured alone"
        return
    fi
    compare/build.sh "$built" || exit 1
    with+=(--cfg reference --extern "reference=$built/libreference.rlib")
}

compile --crate-name foringamo --crate-type rlib --out-dir "$built" rust/src/lib.rs
with+=(--extern "foringamo=$built/libforingamo.rlib")
compile --crate-name measure --crate-type rlib "${with[@]}" --out-dir "$built" bench/measure.rs
with+=(--extern "measure=$built/libmeasure.rlib")
status=0
for program in "${programs[@]}"; do
    [ "$program" != compare ] || reference
    compile "${with[@]}" -o "$built/$program" "bench/$program.rs"
    "$built/$program" || status=1
done
exit "$status"
