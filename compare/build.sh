#!/bin/sh
# Builds the reference (libreference.rlib) and the programs oracle and record.
#
#     compare/build.sh [--debug] [FOLDER]
#
# FOLDER is target/compare under the repository's root where none is given.
# With --debug the Rust's debug assertions and overflow checks are on.
# The Rust crate's files stand in $FORINGAMO_RUST_SOURCES/src; where the variable
# is not set, in shared/docs/src/src beside the repository.
set -eu

flags="-O"
if [ "${1:-}" = "--debug" ]; then
    flags="-C opt-level=1 -C debug-assertions=on -C overflow-checks=on"
    shift
fi

top=$(cd "$(dirname "$0")/.." && pwd)
sources=$(cd "${FORINGAMO_RUST_SOURCES:-$top/../shared/docs/src}/src" && pwd)
out=${1:-$top/target/compare}
# A folder with copies of the programs' files and, as markdown/, of the Rust
# crate's: `rt ci` refuses links. What is read-only there is not so here.
rm -rf "$out/src"
mkdir -p "$out/src"
out=$(cd "$out" && pwd)
cp "$top"/compare/src/*.rs "$out/src/"
cp -R "$sources" "$out/src/markdown"
chmod -R u+w "$out/src"
cd "$out"

build() {
    # One unit, so one job.
    rustc --edition 2021 -C codegen-units=1 $flags --out-dir "$out" "$@"
}

build --crate-type rlib --crate-name reference src/reference.rs
for program in oracle record; do
    build --crate-type bin --crate-name $program --extern "reference=$out/libreference.rlib" src/$program.rs
done
