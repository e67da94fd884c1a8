#!/bin/sh
# Asks the Rust for the cases and answers that the program crates/recorded replays, and writes its files stdin and stdout. They come out the same
# each time; compare/src/record.rs tells how they are chosen.
set -eu
cd "$(dirname "$0")/.."
compare/build.sh
target/compare/record crates/recorded/stdin crates/recorded/stdout
