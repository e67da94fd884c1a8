#!/usr/bin/env bash
# The program withhold and the scripts that run it, as a user runs them: what goes to standard output and to standard error, which the gate does not compare, and
# the status.
#
#     tests/program.sh
#
# Where the program is not built, ./withhold.sh builds it first, and says so. Where there is no cc, or neither python3 nor perl, a line says what is left out. A line
# for each check that fails; the last line is 'N passed, M failed'.
cd "$(dirname "$0")/.." || exit 1
root=$PWD
program=$root/target/bin/withhold

folder=$(mktemp -d) || exit 1
trap 'rm -rf "$folder"' EXIT
mkdir "$folder/tmp" || exit 1
export TMPDIR=$folder/tmp
unset WITHHOLD_PROGRAM WITHHOLD_VERSION_FILE

if ! ./withhold.sh </dev/null >/dev/null; then
    echo 'the program is not built'
    echo '0 passed, 1 failed'
    exit 1
fi

passed=0
failed=0

fails() {
    echo "$1"
    failed=$((failed + 1))
}

# is WHAT ONE OTHER: the two are the same.
is() {
    if [ "$2" = "$3" ]; then
        passed=$((passed + 1))
    else
        fails "$1: '$2', not '$3'"
    fi
}

# check WHAT STATUS COMMAND..: with the file `in` as standard input, the command ends with the status, and writes what the files `shown` and `said` have, the latter
# to standard error.
check() {
    local what=$1 expected=$2 status
    shift 2
    "$@" <"$folder/in" >"$folder/out" 2>"$folder/err"
    status=$?
    if [ "$status" -ne "$expected" ]; then
        fails "$what: status $status, not $expected"
    elif ! cmp -s "$folder/out" "$folder/shown"; then
        fails "$what: standard output differs"
    elif ! cmp -s "$folder/err" "$folder/said"; then
        fails "$what: standard error differs: $(head -n 1 "$folder/err")"
    else
        passed=$((passed + 1))
    fi
}

# both WHAT STATUS COMMAND..: the program and withhold.sh, run by the command, write the same; the program's own status is 0.
both() {
    local what=$1 status=$2
    shift 2
    check "$what" 0 "$@" "$program"
    check "$what, by withhold.sh" "$status" "$@" ./withhold.sh
}

# shows WHAT: the bulletin is shown as it is.
shows() {
    cp "$folder/in" "$folder/shown"
    : >"$folder/said"
    both "$1" 0 env
}

# refuses WHAT NUMBER: nothing is shown.
refuses() {
    : >"$folder/shown"
    printf 'refused %s\n' "$2" >"$folder/said"
    both "$1" "$2" env
}

# cannot WHAT COMMAND..: nothing is shown, and standard error says that it cannot `read standard input`, or what WHAT is.
cannot() {
    local what=$1
    shift
    : >"$folder/shown"
    printf 'withhold: cannot %s\n' "$what" >"$folder/said"
    both "cannot $what: $*" 74 "$@"
}

# copies COUNT BYTE: so many copies of a byte.
copies() {
    head -c "$1" /dev/zero | tr '\0' "$2"
}

# comment COUNT: a comment of so many bytes.
comment() {
    printf '<!--'
    copies "$(($1 - 7))" x
    printf -- '-->'
}

# docs/SCOPE.md, The added screen.
row() {
    printf 'door <!-- x -->9\n<div>\nold\n\nok' >"$folder/in"
    printf 'door 9\n\n\nok' >"$folder/shown"
    : >"$folder/said"
}

# ---- bulletins

row
both 'the added screen' 0 env

: >"$folder/in"
shows 'no byte'

copies 16000 a >"$folder/in"
shows '16,000 bytes'

copies 16001 a >"$folder/in"
refuses '16,001 bytes' 1

# As many lines as there can be.
copies 16000 '\n' >"$folder/in"
shows '16,000 line endings'

copies 16001 '\n' >"$folder/in"
refuses '16,001 line endings' 1

# One piece: nothing is shown, and where it is refused that is for its length alone.
comment 16000 >"$folder/in"
: >"$folder/shown"
: >"$folder/said"
both 'a comment of 16,000 bytes' 0 env

comment 16001 >"$folder/in"
refuses 'a comment of 16,001 bytes' 1

# The library's limit is another.
for length in 40000 1000000 1000001 3000000; do
    copies "$length" a >"$folder/in"
    refuses "$length bytes" 1
    comment "$length" >"$folder/in"
    refuses "a comment of $length bytes" 1
done

# No more is read than tells that there is too much.
unread_by() {
    {
        "$@" >/dev/null 2>&1
        wc -c
    } <"$folder/in"
}
copies 1000001 a >"$folder/in"
is 'what the program leaves unread of 1,000,001 bytes' "$(unread_by "$program")" "$((1000001 - 16001))"
is 'what withhold.sh leaves unread of 1,000,001 bytes' "$(unread_by ./withhold.sh)" "$((1000001 - 16001))"

endless() { timeout 20 "$@" </dev/zero; }
both 'an input without an end' 1 endless

# Every byte but `<`.
for ((b = 0; b < 256; b++)); do
    [ "$b" -eq 60 ] || printf "\\x$(printf %x "$b")"
done >"$folder/in"
shows 'every byte but <'

# README, What it does not know, A backslash before a tag and A broken CDATA opening: what is shown of constructs that withholding takes for text.
withholds() {
    printf '%b' "$2" >"$folder/in"
    printf '%b' "$3" >"$folder/shown"
    : >"$folder/said"
    both "README, $1" 0 env
}
withholds 'code span' 'a `<b>` c' 'a `` c'
withholds 'fenced code' '```\n<div>\n```\nok' '```\n'
withholds 'indented code' '    <div>\n    x' '    \n    x'
withholds 'block quote' '> <div>\n> x' '> \n> x'
withholds 'list' '- <script>\n  x' '- \n  x'
withholds 'list, blank lines' '- <!--\n\n  x\n\n  -->' '- <!--\n\n  x\n\n  -->'
withholds 'link destination' '[a](<b>)' '[a]()'
withholds 'autolink' '<https://example.org>' '<https://example.org>'
withholds 'autolink of an address' '<a@b.org>' '<a@b.org>'
withholds 'autolink that is a declaration too' 'x <!a@b.org>' 'x '
withholds 'no second reading' '<<b>b>' '<b>'
withholds 'a backslash' 'a \\<b>c' 'a \\<b>c'
withholds 'two backslashes' 'a \\\\<b>c' 'a \\\\c'
withholds 'a remark behind a backslash' 'a \\<!-- 7 -->' 'a \\<!-- 7 -->'
withholds 'a backslash in a block' '<div>\\<b>' ''
withholds 'a broken CDATA opening' 'door <![CDx 9 <![CDATA[old 7]]> ok' 'door <![CDx 9  ok'

# What the program says on standard error is not to be had by a bulletin.
printf 'refused 5\nwithhold: cannot read standard input\n' >"$folder/in"
shows 'a bulletin of what the program says'

# ---- standard input and output that fail

a_folder_as_input() { "$@" <"$folder"; }
closed_input() { "$@" <&-; }
full_disk() { "$@" >/dev/full; }
closed_output() { "$@" >&-; }

row
cannot 'read standard input' a_folder_as_input
cannot 'read standard input' closed_input
cannot 'write standard output' full_disk
cannot 'write standard output' closed_output

# Both closed, and standard error too: the status alone tells.
closed_all() { "$@" <&- >&- 2>&-; }
: >"$folder/said"
check 'all closed' 74 closed_all ./withhold.sh

# An input that fails behind its first bytes: a pipe that does not wait, whose other end stays open until the program has ended.
if command -v python3 >/dev/null; then
    unwaiting() { python3 -c 'import fcntl, os, sys; fcntl.fcntl(0, fcntl.F_SETFL, fcntl.fcntl(0, fcntl.F_GETFL) | os.O_NONBLOCK); os.execvp(sys.argv[1], sys.argv[1:])' "$@"; }
elif command -v perl >/dev/null; then
    unwaiting() { perl -MFcntl -e 'fcntl(STDIN, F_SETFL, fcntl(STDIN, F_GETFL, 0) | O_NONBLOCK); exec @ARGV' "$@"; }
else
    echo 'there is no python3 and no perl: an input that fails behind its first bytes is left out'
fi
unwaiting_pipe() {
    local status
    rm -f "$folder/ended"
    {
        printf 'door <!-- secret code 1234 '
        for ((k = 0; k < 200; k++)); do
            [ ! -e "$folder/ended" ] || break
            sleep 0.05
        done
    } | {
        unwaiting "$@"
        status=$?
        : >"$folder/ended"
        exit "$status"
    }
}
if declare -F unwaiting >/dev/null; then
    cannot 'read standard input' unwaiting_pipe
fi

# Nobody reads standard output: the write comes when the reader has gone.
no_reader() {
    rm -f "$folder/gone"
    {
        for ((k = 0; k < 200; k++)); do
            [ ! -e "$folder/gone" ] || break
            sleep 0.05
        done
        cat "$folder/in"
    } | {
        "$@"
        echo $? >"$folder/status"
    } | {
        exec <&-
        : >"$folder/gone"
    }
    return "$(<"$folder/status")"
}
: >"$folder/shown"
printf 'withhold: cannot write standard output\n' >"$folder/said"
check 'nobody reads standard output' 74 no_reader ./withhold.sh

# Calls that are interrupted, move a part, or fail: tests/faults.c.
if ! command -v cc >/dev/null; then
    echo 'there is no cc: tests/faults.c is left out'
elif ! cc -std=c11 -O2 -Wall -Wextra -Wpedantic -Werror -shared -fPIC -o "$folder/faults.so" tests/faults.c; then
    fails 'tests/faults.c: not compiled'
else
    # faulty NAME FAULTS PROGRAM: withhold.sh runs a script that sets them for the program alone.
    faulty() {
        printf '#!/bin/sh\n%s=%s LD_PRELOAD=%s exec %s\n' "$1" "$2" "$folder/faults.so" "$program" >"$folder/faulty"
        chmod +x "$folder/faulty"
        if [ "$3" = "$program" ]; then
            "$folder/faulty"
        else
            WITHHOLD_PROGRAM=$folder/faulty scripts/withhold
        fi
    }
    row
    both 'reads are interrupted, and move a part' 0 faulty FAULTS_READ ii5i3i9
    both 'writes are interrupted, and move a part' 0 faulty FAULTS_WRITE ii1i3i2
    cannot 'read standard input' faulty FAULTS_READ e
    cannot 'read standard input' faulty FAULTS_READ 9e
    cannot 'read standard input' faulty FAULTS_READ I
    cannot 'read standard input' faulty FAULTS_READ 9I
    cannot 'write standard output' faulty FAULTS_WRITE e
    cannot 'write standard output' faulty FAULTS_WRITE I
    cannot 'write standard output' faulty FAULTS_WRITE 0
    printf 'doo' >"$folder/shown"
    both 'a write fails behind three bytes' 74 faulty FAULTS_WRITE 3e
fi

# ---- arguments

: >"$folder/in"
: >"$folder/said"
printf 'withhold %s\n' "$(<VERSION)" >"$folder/shown"
check --version 0 ./withhold.sh --version
./withhold.sh --help >"$folder/shown"
check --help 0 ./withhold.sh --help
is '--help: the first line' "$(head -n 1 "$folder/shown")" 'usage: withhold <bulletin >shown'
: >"$folder/shown"
for wrong in x -h --versions -- ''; do
    printf 'withhold: wrong arguments: %s; --help tells more\n' "$wrong" >"$folder/said"
    check "the argument '$wrong'" 64 ./withhold.sh "$wrong"
done
printf 'withhold: wrong arguments: --help x; --help tells more\n' >"$folder/said"
check 'two arguments' 64 ./withhold.sh --help x
printf 'withhold: cannot write standard output\n' >"$folder/said"
check '--help to a full disk' 74 full_disk ./withhold.sh --help
check '--version to nowhere' 74 closed_output ./withhold.sh --version

# ---- an installation: scripts/withhold, with the program and its version below libexec

mkdir -p "$folder/prefix/bin" "$folder/prefix/libexec/foringamo"
cp scripts/withhold "$folder/prefix/bin/"
cp "$program" VERSION "$folder/prefix/libexec/foringamo/"
ln -s "$folder/prefix/bin/withhold" "$folder/installed"
row
check 'installed' 0 "$folder/prefix/bin/withhold"
check 'installed, by a link' 0 "$folder/installed"
printf 'withhold %s\n' "$(<VERSION)" >"$folder/shown"
check 'installed, --version' 0 "$folder/prefix/bin/withhold" --version
: >"$folder/shown"
printf 'refused 1\n' >"$folder/said"
copies 16001 a >"$folder/in"
check 'installed, 16,001 bytes' 1 "$folder/prefix/bin/withhold"
rm "$folder/prefix/libexec/foringamo/withhold"
printf 'withhold: there is no program at %s\n' "$folder/prefix/libexec/foringamo/withhold" >"$folder/said"
check 'installed without the program' 70 "$folder/prefix/bin/withhold"

# ---- a program that does not what it should

# stands_in LINES: a script in the program's place.
stands_in() {
    printf '#!/bin/sh\n%s\n' "$1" >"$folder/stand-in"
    chmod +x "$folder/stand-in"
}
: >"$folder/in"
stands_in 'echo shown; echo noise >&2'
printf 'shown\n' >"$folder/shown"
printf 'noise\nwithhold: the program says what it should not\n' >"$folder/said"
check 'an unknown word on standard error' 70 env WITHHOLD_PROGRAM="$folder/stand-in" scripts/withhold
: >"$folder/shown"
for said in 'refused 0' 'refused 60' 'refused 1 ' 'refused' 'Refused 1'; do
    stands_in "echo '$said' >&2"
    printf '%s\nwithhold: the program says what it should not\n' "$said" >"$folder/said"
    check "'$said' on standard error" 70 env WITHHOLD_PROGRAM="$folder/stand-in" scripts/withhold
done
stands_in 'echo refused 14 >&2'
printf 'refused 14\n' >"$folder/said"
check 'a refusal of two digits' 14 env WITHHOLD_PROGRAM="$folder/stand-in" scripts/withhold
stands_in 'kill -SEGV $$'
printf 'withhold: the program was ended by signal 11\n' >"$folder/said"
check 'a program that a signal ends' 139 env WITHHOLD_PROGRAM="$folder/stand-in" scripts/withhold

# ---- signals

# left PID: what still runs there after five seconds, or nothing as soon as it has ended.
left() {
    for ((k = 0; k < 100; k++)); do
        [ -n "$(readlink "/proc/$1/exe")" ] || return
        sleep 0.05
    done
    readlink "/proc/$1/exe"
}

# ended WHAT SIGNAL PID STATUS: the run there is sent the signal, and ends with the status. One that goes on is not waited for.
ended() {
    kill "-$2" "$3"
    is "$1: the run that is left" "$(left "$3")" ''
    kill -KILL "$3" 2>/dev/null
    wait "$3" 2>/dev/null
    is "$1" $? "$4"
}

# ends_by SIGNAL STATUS: a run that waits for its input is sent the signal, and neither it nor the program is left. The run begins with the signal's default
# action: a script cannot trap what was ignored when it began, as SIGHUP is behind nohup.
ends_by() {
    local run child=''
    rm -f "$folder/fifo"
    mkfifo "$folder/fifo"
    exec 7<>"$folder/fifo"
    # Job control, since a shell without it has its background commands ignore SIGINT.
    set -m
    env --default-signal="$1" ./withhold.sh <"$folder/fifo" >/dev/null 2>&1 7>&- &
    run=$!
    set +m
    for ((k = 0; k < 200; k++)); do
        child=$(cat "/proc/$run/task/$run/children" 2>/dev/null)
        [[ -z $child || $(readlink "/proc/${child%% *}/exe") != "$program" ]] || break
        sleep 0.05
    done
    ended "SIG$1" "$1" "$run" "$2"
    is "SIG$1: the program that is left" "$(left "${child%% *}")" ''
    exec 7>&-
}
ends_by TERM 143
ends_by INT 130
ends_by HUP 129

# ---- building, in a copy of the repository, with a script in rt's place: to prove all from nothing takes minutes. It does what `rt run` does as far as withhold.sh
# sees: a line has the jobs that it chose for a crate when its proof begins, all that is said goes to standard error, what it makes goes to the crates' out/, a program
# whose stamp is there is not built again, the program is run, and the status is 1 where something is not proved.

# The crates that the program depends on, and the program.
export STAND_IN_CRATES='lexical rules html flow runs walk spans screen withhold'
copy=$folder/copy
mkdir -p "$copy" "$folder/bin"
cp -R withhold.sh scripts VERSION crates.txt "$copy/"
# The crates, less what rt has made in them.
for part in crates/*/*; do
    [ "${part##*/}" != out ] || continue
    mkdir -p "$copy/${part%/*}"
    cp -R "$part" "$copy/${part%/*}/"
done
cat >"$folder/bin/rt" <<'STAND_IN'
#!/usr/bin/env bash
[ "$*" = run ] && [ -f src/main.rt ] || exit 2
echo run >>"$STAND_IN/runs"
echo $$ >"$STAND_IN/pid"
exec >&2
for crate in $STAND_IN_CRATES; do
    # In two pieces, as they may come.
    printf 'rt: chose --jobs 2'
    mkdir -p "../$crate/out/rlib"
    sleep "${STAND_IN_TIME:-0}"
    echo " for $crate"
    echo 'note: a note of the prover'
    date >"../$crate/out/rlib/stamp"
done
if [ -e "$STAND_IN/fails" ]; then
    echo 'rt: the library screen did not build, so nothing above it was checked'
    exit 1
fi
[ -e out/withhold.stamp ] || cp "$STAND_IN_PROGRAM" out/withhold
: >out/withhold.stamp
echo 'rt: running out/withhold; to give it other input, run that file yourself'
out/withhold
STAND_IN
chmod +x "$folder/bin/rt"
export STAND_IN=$folder STAND_IN_PROGRAM=$program
: >"$folder/runs"
with_rt() { PATH=$folder/bin:$PATH "$@"; }

# runs WHAT COUNT: so many runs of rt, all in all.
runs() {
    is "$1: the runs of rt" "$(wc -l <"$folder/runs")" "$2"
}

# shown_by WHAT COMMAND..: the command shows the added screen, with status 0, whatever it says.
shown_by() {
    local what=$1
    shift
    row
    "$@" <"$folder/in" >"$folder/out" 2>"$folder/err"
    is "$what: the status" $? 0
    is "$what: what is shown" "$(<"$folder/out")" "$(<"$folder/shown")"
}

# Nothing is built for an argument.
with_rt "$copy/withhold.sh" --help >"$folder/out"
is 'not built, --help' $? 0
with_rt "$copy/withhold.sh" x 2>"$folder/err"
is 'not built, a wrong argument' $? 64
runs 'not built, an argument' 0

# Without rt: a PATH of the tools that are used, and no more.
mkdir "$folder/tools"
for tool in bash cat dirname env find flock mkdir readlink rm sleep sort tail; do
    path=$(command -v "$tool") && ln -s "$path" "$folder/tools/$tool"
done
: >"$folder/shown"
printf "withhold: the program is not built: there is no 'rt', the Rattle toolchain, on PATH\n" >"$folder/said"
check 'no rt' 70 env PATH="$folder/tools" "$copy/withhold.sh"

# The first run.
STAND_IN_TIME=0.3 shown_by 'the first run' with_rt "$copy/withhold.sh"
runs 'the first run' 1
{
    echo "withhold: building the program first: each crate that is new or changed is proved, which can take minutes; what the prover says goes to $copy/target/withhold/build.log"
    k=0
    for crate in $STAND_IN_CRATES; do
        k=$((k + 1))
        echo "withhold: proving $crate, $k of $(wc -w <<<"$STAND_IN_CRATES")"
    done
    echo 'withhold: built'
} >"$folder/said"
is 'the first run: what is said' "$(<"$folder/err")" "$(<"$folder/said")"
is 'the first run: the notes in the log' "$(grep -c '^note: ' "$copy/target/withhold/build.log")" "$(wc -w <<<"$STAND_IN_CRATES")"

# A run that need not build.
row
check 'the second run' 0 with_rt "$copy/withhold.sh"
check 'the second run, without rt' 0 env PATH="$folder/tools" "$copy/withhold.sh"
runs 'the second run' 1
began=${EPOCHREALTIME/./}
for ((k = 0; k < 10; k++)); do
    ./withhold.sh </dev/null
done
took=$(((${EPOCHREALTIME/./} - began) / 10000))
# Measured: 0.05 s. A busy machine may take longer.
[ "$took" -lt 500 ]
is "a run that need not build takes $took ms, under 500" $? 0

# A source that is newer, added or removed, of the program or of what it depends on.
count=1
rebuilds() {
    shown_by "$1" with_rt "$copy/withhold.sh"
    count=$((count + 1))
    runs "$1" "$count"
    check "$1, once more" 0 with_rt "$copy/withhold.sh"
    runs "$1, once more" "$count"
}
for changed in crates.txt crates/withhold/src/main.rt crates/lexical/src/byte.rt crates/rules/specs/Tag.antt crates/screen/proofs/Withholding.antt; do
    touch "$copy/$changed"
    rebuilds "$changed is newer"
done
touch -d '2001-01-01' "$copy/crates/html/src/scan.rt"
rebuilds 'a source is older'
: >"$copy/crates/flow/proofs/Added.antt"
rebuilds 'a source is added'
rm "$copy/crates/flow/proofs/Added.antt"
rebuilds 'a source is removed'
rm "$copy/target/bin/withhold"
rebuilds 'the program is removed'
rm -r "$copy/target"
rebuilds 'target/ is removed'
rm -r "$copy"/crates/*/out "$copy/target"
rebuilds 'target/ and what rt has made are removed'
touch "$copy/crates/trace/src/lib.rt" "$copy/crates/withhold/stdin" "$copy/crates/screen/out/rlib/stamp" "$copy/README.md"
check 'what it does not depend on is newer' 0 with_rt "$copy/withhold.sh"
runs 'what it does not depend on is newer' "$count"

# A build that fails: the program that is there is not run. It is tried again at the next run.
: >"$folder/fails"
touch "$copy/crates/screen/src/withhold.rt"
for turn in first second; do
    with_rt "$copy/withhold.sh" <"$folder/in" >"$folder/out" 2>"$folder/err"
    is "a build that fails, the $turn time" $? 70
    is "a build that fails, the $turn time: what is shown" "$(<"$folder/out")" ''
    is "a build that fails, the $turn time: what is said last" "$(tail -n 1 "$folder/err")" "withhold: the program is not built: rt: the library screen did not build, so nothing above it was checked; what the prover says is in $copy/target/withhold/build.log"
done
rm "$folder/fails"
count=$((count + 2))
rebuilds 'a build that failed'

# Two runs at once build once.
touch "$copy/crates/screen/src/withhold.rt"
if command -v flock >/dev/null; then
    STAND_IN_TIME=0.1 with_rt "$copy/withhold.sh" <"$folder/in" >"$folder/one" 2>/dev/null &
    one=$!
    STAND_IN_TIME=0.1 shown_by 'two runs at once' with_rt "$copy/withhold.sh"
    wait "$one"
    is 'two runs at once: the other' "$(<"$folder/one")" "$(<"$folder/shown")"
    count=$((count + 1))
    runs 'two runs at once' "$count"
else
    echo 'there is no flock: two runs at once are left out'
fi

# A run that has built, and waits for its input, does not keep others from building.
touch "$copy/crates/screen/src/withhold.rt"
rm -f "$folder/fifo" "$copy/target/withhold/sources"
mkfifo "$folder/fifo"
exec 7<>"$folder/fifo"
with_rt "$copy/withhold.sh" <"$folder/fifo" >/dev/null 2>&1 7>&- &
waiting=$!
for ((k = 0; k < 200; k++)); do
    [ ! -e "$copy/target/withhold/sources" ] || break
    sleep 0.05
done
touch "$copy/crates/screen/src/withhold.rt"
row
with_rt timeout 20 "$copy/withhold.sh" <"$folder/in" >"$folder/out" 2>/dev/null
is 'a run beside one that waits for its input' $? 0
is 'a run beside one that waits for its input: what is shown' "$(<"$folder/out")" "$(<"$folder/shown")"
exec 7>&-
wait "$waiting"
count=$((count + 2))
runs 'a run beside one that waits for its input' "$count"

# A build that a signal ends leaves nothing running.
touch "$copy/crates/screen/src/withhold.rt"
rm -f "$folder/pid"
STAND_IN_TIME=5 PATH=$folder/bin:$PATH env --default-signal=TERM "$copy/withhold.sh" <"$folder/in" >"$folder/out" 2>/dev/null &
building=$!
for ((k = 0; k < 200; k++)); do
    [ ! -s "$folder/pid" ] || break
    sleep 0.05
done
ended 'a build that SIGTERM ends' TERM "$building" 143
is 'a build that SIGTERM ends: the rt that is left' "$(left "$(<"$folder/pid")")" ''
count=$((count + 1))
rebuilds 'a build that a signal ended'

# Links.
mkdir -p "$folder/links/below"
ln -s "$copy/withhold.sh" "$folder/links/whole"
ln -s ../copy/withhold.sh "$folder/links/relative"
ln -s ../relative "$folder/links/below/chained"
ln -s "$copy" "$folder/links/folder"
row
for link in whole relative below/chained folder/withhold.sh; do
    check "by the link $link" 0 with_rt "$folder/links/$link"
done
in_folder() { (cd "$1" && shift && "$@"); }
check 'by a link in this folder' 0 in_folder "$folder/links/below" ./chained
check 'by a link on PATH' 0 env PATH="$folder/links:$PATH" relative
check 'by bash' 0 in_folder "$copy" bash withhold.sh
runs 'by links' "$count"

# A path with spaces, and a folder that cannot be written.
cp -R "$copy" "$folder/a copy"
rm -r "$folder/a copy/target"
shown_by 'a path with spaces' with_rt "$folder/a copy/withhold.sh"
rm -r "$folder/a copy/target"
: >"$folder/a copy/target"
: >"$folder/shown"
printf 'withhold: the program is not built: cannot write in %s\n' "$folder/a copy/target/withhold" >"$folder/said"
check 'target/ is no folder' 70 with_rt "$folder/a copy/withhold.sh"

is 'temporary files that are left' "$(ls -A "$folder/tmp")" ''

echo "$passed passed, $failed failed"
[ "$failed" -eq 0 ]
