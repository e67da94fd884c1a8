#!/usr/bin/env bash
# Shows the bulletin on standard input without its raw HTML. Where the program is not built, or a source has changed since, it is proved and built first, with a
# line on standard error for each crate that is proved. Then scripts/withhold runs it, whose --help has the statuses.
#
#     printf 'door <!-- x -->9\n' | ./withhold.sh

SOFTWARE=70

root=$(dirname -- "$(readlink -f -- "${BASH_SOURCE[0]}")")
program=$root/target/bin/withhold
made=$root/crates/withhold/out/withhold
folder=$root/target/withhold
log=$folder/build.log

say() {
    printf 'withhold: %s\n' "$1" >&2
}

# fails WHAT: the program is not built.
fails() {
    say "the program is not built: $1"
    exit "$SOFTWARE"
}

run() {
    WITHHOLD_PROGRAM=$program WITHHOLD_VERSION_FILE=$root/VERSION exec "$root/scripts/withhold" "$@"
}

# The crates that the program depends on, and the program, in the order in which they are proved.
declare -A needed
order=()
read_crates() {
    local line name
    # Before the colon words on how the crate is built may stand behind its name.
    while read -r name line; do
        line="$name $line"
        line=${line%%#*}
        [[ $line == *:* ]] || continue
        needed[${name%%:*}]=${line#*:}
    done <"$root/crates.txt"
}
visit() {
    local name names
    [[ -v needed[$1] ]] || return 0
    names=${needed[$1]}
    unset "needed[$1]"
    for name in $names; do
        visit "$name"
    done
    order+=("$1")
}

# Their sources, each with its time and length. One that is added or removed changes the list too. What rt makes stands in crates/NAME/out.
sources() {
    local name
    local -a places=(crates.txt)
    for name in "${order[@]}"; do
        places+=("crates/$name/src" "crates/$name/specs" "crates/$name/proofs")
    done
    (cd "$root" && find "${places[@]}" -type f -printf '%p %T@ %s\n' 2>/dev/null | LC_ALL=C sort)
}

# Whether the program is built from the sources as they are now.
is_built() {
    now=$(sources)
    [ -x "$program" ] && [ -r "$folder/sources" ] && [ "$(<"$folder/sources")" = "$now" ]
}

# Says which crates are being proved: rt says how many jobs it chose for a crate when it begins with one. It goes on in the log from where it was, and keeps the
# part of a line that is not whole yet.
declare -A told
line=
tell() {
    local part name
    while IFS= read -r part <&8; do
        line+=$part
        if [[ $line =~ ^'rt: chose --jobs '[0-9]+' for '([a-z0-9_]+)$ ]]; then
            name=${BASH_REMATCH[1]}
            if [[ ! -v told[$name] ]]; then
                told[$name]=1
                say "proving $name, ${#told[@]} of ${#order[@]}"
            fi
        fi
        line=
    done
    line+=$part
}

build() {
    local building signal
    command -v rt >/dev/null || fails "there is no 'rt', the Rattle toolchain, on PATH"
    { : >"$log"; } 2>/dev/null || fails "cannot write in $folder"
    say "building the program first: each crate that is new or changed is proved, which can take minutes; what the prover says goes to $log"
    exec 8<"$log"
    # In a process group of its own, so that a signal that ends this script ends all of it. What rt has built it runs: on no byte.
    set -m
    (cd "$root/crates/withhold" && exec rt run) </dev/null >"$log" 2>&1 8<&- &
    building=$!
    set +m
    for signal in HUP INT QUIT TERM; do
        # shellcheck disable=SC2064
        trap "kill -TERM -- -$building 2>/dev/null; trap - $signal; kill -$signal $$" "$signal"
    done
    while kill -0 "$building" 2>/dev/null; do
        tell
        sleep 0.1
    done
    tell
    wait "$building" || fails "$(tail -n 1 "$log"); what the prover says is in $log"
    trap - HUP INT QUIT TERM
    exec 8<&-
    [ -x "$made" ] || fails "rt made no $made; what it says is in $log"
    # A run that still waits for its input keeps the program that it has.
    { cp "$made" "$program.new" && mv -f "$program.new" "$program"; } 2>/dev/null || fails "cannot write in ${program%/*}"
    printf '%s\n' "$now" >"$folder/sources" || fails "cannot write in $folder"
    say "built"
}

# An argument asks for no bulletin: nothing is built for it.
[ $# -eq 0 ] || run "$@"
[ -r "$root/crates.txt" ] || fails "there is no $root/crates.txt"
read_crates
visit withhold
if ! is_built; then
    mkdir -p "$folder" "${program%/*}" 2>/dev/null || fails "cannot write in $folder"
    # One run builds at a time.
    exec 9>>"$folder/lock"
    if command -v flock >/dev/null && ! flock -n 9; then
        say 'another run is building the program; waiting for it'
        flock 9
    fi
    is_built || build
    exec 9>&-
fi
run
