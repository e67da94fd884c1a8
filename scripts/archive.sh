#!/usr/bin/env bash
# Builds the archive target/staticlib/libforingamo.a where it is not there or is older than its sources, by `rt lib` in crates/foringamo, which proves what it
# builds, and says so. (The program is built by withhold.sh.)
#
#     scripts/archive.sh
#
# What rt says goes to a file under target/. Where there is no rt, an older archive stays as it is, and a line says so. It ends with status 0 where the archive is
# there.
cd "$(dirname "$0")/.." || exit 1

file=target/staticlib/libforingamo.a
made=crates/foringamo/out/libforingamo.a
log=target/staticlib/build.log

# sources CRATE: crates.txt, and the code of the crate and of all that it depends on.
sources() {
    echo crates.txt
    awk -v crate="$1" '
        function take(name, count, names, i) {
            if (name in taken || !(name in needs)) return
            taken[name]
            print "crates/" name "/src"
            count = split(needs[name], names, " ")
            for (i = 1; i <= count; i++) take(names[i])
        }
        # Before the colon words on how the crate is built may stand behind its name.
        /^[a-z]/ { split($0, half, ":"); split(half[1], words, " "); needs[words[1]] = half[2] }
        END { take(crate) }
    ' crates.txt
}

if [ -f "$file" ]; then
    mapfile -t from < <(sources foringamo)
    newer=$(find "${from[@]}" -newer "$file" -print -quit)
    [ -n "$newer" ] || exit 0
    why="$file is older than $newer"
else
    why="there is no $file"
fi

if ! command -v rt >/dev/null; then
    if [ -f "$file" ]; then
        echo "$why, and there is no rt to build it: it is used as it is"
        exit 0
    fi
    echo "$why, and there is no rt to build it" >&2
    exit 1
fi

echo "$why: \`rt lib\` in crates/foringamo builds it, some minutes where nothing is proved yet; what it says goes to $log"
mkdir -p "$(dirname "$log")" || exit 1
if ! (cd crates/foringamo && rt lib) </dev/null >"$log" 2>&1 || [ ! -f "$made" ]; then
    echo "rt did not build $made: $log" >&2
    exit 1
fi
# Whole, or not at all.
cp "$made" "$file.new" && mv -f "$file.new" "$file"
