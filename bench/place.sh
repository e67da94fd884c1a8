#!/usr/bin/env bash
# How much the time of a call depends on where the code lies: the archive is linked with 0, 16, 32, 48, 64 and 96 bytes in front of it, and each program takes the
# least time of a call on 16,000 bytes.
#
#     bench/place.sh INPUT [ARCHIVE..]
#
# INPUT is one of bench/count.sh's, or '=' and a unit that is to be withheld again and again; before the '=' may stand a word of bench/count.c, as in 'filter:=' or
# 'find:='. ARCHIVE is target/staticlib/libforingamo.a where none is given, which scripts/archive.sh builds where it must. With several, as that of an earlier commit
# and today's, their programs take turns, and a line has the time of each; one from before there was foringamo_find withholds without a list. It needs cc.
if [ $# -lt 1 ]; then
    echo 'bench/place.sh INPUT [ARCHIVE..]' >&2
    exit 1
fi
input=$1
shift
. "$(dirname "$0")/archives.sh"
built=target/place
mkdir -p "$built" || exit 1
for bytes in 0 16 32 48 64 96; do
    printf '.text\n.fill %d, 1, 0x90\n.section .note.GNU-stack,"",@progbits\n' "$bytes" >"$built/bytes.s"
    times=
    for archive in "${archives[@]}"; do
        build "$built/count" "$built/bytes.s" "$archive" || exit 1
        times+=" $("$built/count" "$input" time)" || exit 1
    done
    echo "$bytes bytes:$times microseconds"
done
