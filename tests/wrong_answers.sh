#!/usr/bin/env bash
# The wrong answers that the contracts shut out: with each edit of crates/NAME/wrong-answers and of crates/NAME/must-fail the prover must refuse the crate because
# a fact no longer holds. docs/WRONG_ANSWERS.md tells which contract each one is for.
#
#     tests/wrong_answers.sh [NAME..]
#
# takes the crates named, or all that have such edits. An edit has the form of a must-fail edit of `rt`: lines 'file:', 'old:' and 'new:', where the old text
# stands exactly once in its file. `rt must-fail` tries them in a copy of the repository, where the edits of both folders stand in must-fail/, each over what a
# check of the unedited crate left there. What an earlier run on this machine tried on the same files is not tried again: a second run is short, and in the gate
# the edits of must-fail/ cost nothing, as `rt ci` has just tried them. They are here since `rt ci` passes where one of them cannot be applied or shows nothing.
#
# Counted are, for each crate, the control (unedited, it is proved in the copy) and each edit. An edit fails where the crate is proved with it, where it cannot be
# applied or read, where it changes a proof, where it does not come to one, and where the prover refuses it only because a proof file names what is gone, or only by
# a limit of its own: such an edit shows nothing. Where the control fails no edit of the crate is tried. A line for each edit that fails, and for each crate; what
# `rt` says of it stands in target/wrong-answers/NAME.log. The last line is 'N passed, M failed', and the status is 0 only if none failed and there were some.
cd "$(dirname "$0")/.." || exit 1
logs=$PWD/target/wrong-answers
jobs=$(nproc 2>/dev/null || echo 1)

passed=0
failed=0

# fail WHAT WHY: one that failed.
fail() {
    echo "$1: $2"
    failed=$((failed + 1))
}

# has_edits NAME: whether the crate has any.
has_edits() {
    compgen -G "crates/$1/wrong-answers/*.edit" >/dev/null || compgen -G "crates/$1/must-fail/*.edit" >/dev/null
}

# copy NAME: the crate's code, definitions and proofs, to the copy.
copy() {
    local part
    mkdir -p "$room/crates/$1" || return
    for part in src specs proofs; do
        [ ! -d "crates/$1/$part" ] || cp -R "crates/$1/$part" "$room/crates/$1/" || return
    done
}

# edits NAME: the crate's edits, to its must-fail/ in the copy; says which ones have one name.
edits() {
    local to=$room/crates/$1/must-fail with file
    mkdir -p "$to" || return
    for with in must-fail wrong-answers; do
        for file in "crates/$1/$with"/*; do
            if [ -e "$to/${file##*/}" ]; then
                echo "$1/${file##*/}"
            elif [ -e "$file" ]; then
                cp -R "$file" "$to/" || return
            fi
        done
    done
}

# side_by_side COMMAND..: starts it, once fewer run than there are processors.
side_by_side() {
    while [ "$(jobs -rp | wc -l)" -ge "$jobs" ]; do
        wait -n
    done
    "$@" &
}

# control NAME: whether the crate is proved as it is, noted by NAME.proved.
control() {
    if (cd "$room/crates/$1" && rt check </dev/null) >"$logs/$1.log" 2>&1 && grep -q '^logic=proved' "$logs/$1.log"; then
        : >"$logs/$1.proved"
    fi
}

# try NAME: what `rt must-fail` says of the crate's edits, to NAME.log, and in how many seconds, to NAME.seconds.
try() {
    local began=$SECONDS
    (cd "$room" && RT_JOBS=1 rt must-fail "$1" </dev/null) >"$logs/$1.log" 2>&1
    echo $((SECONDS - began)) >"$logs/$1.seconds"
}

# verdict NAME EDIT: why the edit fails; no word where it was refused for a fact.
verdict() {
    local said
    if grep '^file:' "$room/crates/$1/must-fail/$2" | grep -qvE '^file: (src/.*\.rt|specs/.*\.antt)$'; then
        echo 'it changes a file that is none of src/ or specs/'
        return
    fi
    said=$(grep -F -m 1 "must-fail $1/$2: " "$logs/$1.log")
    said=${said#*"must-fail $1/$2: "}
    case $said in
    # (two forms of it that `rt` does not tell apart)
    'refused, as it must be: '*proofs/*'is not a field of '* | 'refused, as it must be: '*proofs/*'`: record `'*)
        echo "only a proof file is shown that names what is gone: $said"
        ;;
    'refused, as it must be: '*) ;;
    'refused, as it must be') echo 'it is refused, and no fact is named' ;;
    '') echo 'it was not tried' ;;
    *) echo "$said" ;;
    esac
}

# count NAME: the crate's control and its edits.
count() {
    local file why edits=0 before=$failed
    if [ ! -f "$logs/$1.proved" ]; then
        fail "$1" "it is not proved unedited: target/wrong-answers/$1.log"
        return
    fi
    passed=$((passed + 1))
    for file in "$room/crates/$1/must-fail"/*; do
        # (a note beside the edits)
        [[ $file != *.md ]] || continue
        edits=$((edits + 1))
        why=$(verdict "$1" "${file##*/}")
        if [ -z "$why" ]; then
            passed=$((passed + 1))
        else
            fail "$1/${file##*/}" "$why"
        fi
    done
    echo "$1: $edits edits and a control, $((failed - before)) failed ($(cat "$logs/$1.seconds") s)"
}

names=("$@")
if [ "$#" -eq 0 ]; then
    for of in crates/*/; do
        name=$(basename "$of")
        ! has_edits "$name" || names+=("$name")
    done
fi
for name in "${names[@]}"; do
    has_edits "$name" || { echo "crates/$name has no wrong answers" >&2; exit 2; }
done

# Outside the repository, where a run that is cut off leaves no crates that `rt ci` would find.
room=$(mktemp -d) || exit 1
trap 'rm -rf "$room"' EXIT
trap 'exit 1' HUP INT TERM
rm -rf "$logs"
mkdir -p "$logs" || exit 1
cp crates.txt "$room/" || exit 1
[ ! -f HANDLES ] || cp HANDLES "$room/" || exit 1
for of in crates/*/; do
    copy "$(basename "$of")" || exit 1
done
for name in "${names[@]}"; do
    twice=$(edits "$name") || exit 1
    [ -z "$twice" ] || fail "$twice" 'it stands in must-fail/ and in wrong-answers/'
done

# The controls, lowest crates first, and then the edits, beginning with the crates that have most: then no processor waits long for the last crate.
while IFS=': ' read -r name _; do
    [[ " ${names[*]} " != *" $name "* ]] || side_by_side control "$name"
done <crates.txt
wait
echo "${#names[@]} unedited crates are checked ($SECONDS s)"
while read -r _ name; do
    [ ! -f "$logs/$name.proved" ] || side_by_side try "$name"
done < <(for name in "${names[@]}"; do echo "$(find "$room/crates/$name/must-fail" -type f | wc -l) $name"; done | sort -rn)
wait
for name in "${names[@]}"; do
    count "$name"
done
echo "the edits are tried ($SECONDS s in all)"
echo "$passed passed, $failed failed"
[ "$failed" -eq 0 ] && [ "$passed" -gt 0 ]
