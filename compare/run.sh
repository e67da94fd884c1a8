#!/usr/bin/env bash
# The differential run: the library, as its archive, against the Rust crate's files, on the same inputs.
#
#     compare/run.sh [--archive FILE] [--seed N] [--count N | --long]
#
# FILE is target/staticlib/libforingamo.a where none is given; scripts/archive.sh builds it where it must. The seed is 1 and the count of random texts 1,000,000 where none is
# given; the head of compare/src/differ.rs tells what is compared. The short form takes one to two minutes, --long five to nine (docs/DIFFERENCES.md).
# The crate's files stand in $FORINGAMO_RUST_SOURCES, in ../shared/docs/src where that is not set. Where they or rustc are not there its last lines say 'not
# compared'.
cd "$(dirname "$0")/.." || exit 1

# ends MESSAGE PASSED-AND-FAILED STATUS
ends() {
    echo "compare: $1"
    echo "$2"
    exit "$3"
}

sources=${FORINGAMO_RUST_SOURCES:-../shared/docs/src}
command -v rustc >/dev/null || ends "there is no rustc: not compared" "0 passed, 0 failed" 0
[ -d "$sources/src" ] || ends "the Rust crate's files are not in $sources: not compared" "0 passed, 0 failed" 0

archive=target/staticlib/libforingamo.a
if [ "${1:-}" = --archive ]; then
    archive=${2:?an archive}
    shift 2
else
    scripts/archive.sh || ends "there is no archive" "0 passed, 1 failed" 1
fi

# The linker looks for the archive by its name in a folder.
compare/build.sh &&
    mkdir -p target/compare/archive &&
    cp "$archive" target/compare/archive/libforingamo.a &&
    rustc --edition 2021 -C codegen-units=1 -O --out-dir target/compare --crate-type bin --crate-name differ \
        --extern reference=target/compare/libreference.rlib -L target/compare/archive -l static=foringamo \
        compare/src/differ.rs || ends "the programs were not built" "0 passed, 1 failed" 1
exec target/compare/differ "$@"
