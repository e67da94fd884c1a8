# Sourced by count.sh and place.sh, with the archives of their call: goes to the repository's folder and sets `archives`, the paths of those named, or of
# target/staticlib/libforingamo.a where none is, which scripts/archive.sh builds where it must. `build PROGRAM FILE..` builds bench/count.c with the files.
archives=()
for archive in "$@"; do
    archives+=("$(readlink -e -- "$archive")") || {
        echo "there is no $archive" >&2
        exit 1
    }
done
cd "$(dirname "$0")/.." || exit 1
command -v cc >/dev/null || {
    echo 'there is no cc: nothing is measured' >&2
    exit 1
}
if [ $# -eq 0 ]; then
    archives=(target/staticlib/libforingamo.a)
    scripts/archive.sh >&2 || exit 1
fi

build() {
    cc -std=c11 -O2 -Wall -Wextra -Wpedantic -Werror -Iinclude -o "$1" bench/count.c "${@:2}"
}
