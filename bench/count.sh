#!/usr/bin/env bash
# Counts instructions, which are the same however busy the machine is: seventeen inputs of 16,000 bytes that are scanned or withheld, four that are filtered, four that
# are withheld by the standard, four whose spans are found, the same four shown beside these, and four whose traces are written, each 200 times.
#
#     bench/count.sh [ARCHIVE..]
#
# ARCHIVE is target/staticlib/libforingamo.a where none is given, which scripts/archive.sh builds where it must. With several, as that of an earlier commit and today's,
# a line has the count of each in turn, and their answers must be the same; '-' is the count of an archive that lacks the function, and one from before there was
# foringamo_find withholds without a list. The profiles are target/count/INPUT, and of the further ones INPUT1 and so on. It needs cc and valgrind.
command -v valgrind >/dev/null || {
    echo 'there is no valgrind: nothing is counted' >&2
    exit 1
}
. "$(dirname "$0")/archives.sh"
built=target/count
mkdir -p "$built" || exit 1
for i in "${!archives[@]}"; do
    build "$built/count$i" "${archives[i]}" || exit 1
done
inputs=(comment value attributes prose tags blocks late lines table row raw marks xmp unclosed long remark endings filter:prose filter:table filter:tags filter:xmp
    standard:prose standard:tags standard:blocks standard:table find:prose find:tags find:blocks find:table show:prose show:tags show:blocks show:table
    trace:value trace:remark trace:long trace:endings)
for input in "${inputs[@]}"; do
    counts= answers=
    for i in "${!archives[@]}"; do
        sum=$(valgrind --tool=callgrind --callgrind-out-file="$built/$input${i#0}" "$built/count$i" "$input" 2>"$built/said")
        status=$?
        # There is no such function.
        if [ "$status" -eq 3 ]; then
            counts+=' -'
            continue
        fi
        [ "$status" -eq 0 ] || exit 1
        if [ -n "$answers" ] && [ "$sum" != "$answers" ]; then
            echo "$input: the answers add up to $answers, and with ${archives[i]} to $sum" >&2
            exit 1
        fi
        answers=$sum counts+=" $(sed -n 's/.*Collected : //p' "$built/said")"
    done
    echo "$input:$counts instructions, answers $answers"
done
