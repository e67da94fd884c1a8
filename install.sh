#!/usr/bin/env bash
# Installs the library, its header, the program withhold, and their manual pages.
#
#     ./install.sh [PREFIX]
#
# PREFIX is /usr/local where none is given. Where DESTDIR is set, all goes under that folder, to be moved to PREFIX later: foringamo.pc names PREFIX alone.
#
#     bin/withhold                              (which runs libexec/foringamo/withhold; beside that VERSION)
#     include/foringamo.h
#     lib/libforingamo.a, lib/libforingamo.so   (which links to the shared library of this version)
#     lib/pkgconfig/foringamo.pc
#     share/man/man1/withhold.1, share/man/man3/foringamo.3   (and a page for each function, which names the latter)
#     share/doc/foringamo/NOTICE
#
# What is not built yet, or is older than its sources, is built first, by scripts/archive.sh and withhold.sh. The shared library needs cc; where there is none, a line says that it is left out.
set -eu

usage='usage: ./install.sh [PREFIX]'
case ${1:-} in
-h | --help)
    echo "$usage"
    exit
    ;;
-*)
    echo "$usage" >&2
    exit 2
    ;;
esac
if [ $# -gt 1 ]; then
    echo "$usage" >&2
    exit 2
fi

# whole FOLDER: its name from / on.
whole() {
    case $1 in
    /*) echo "${1%/}" ;;
    *) echo "$PWD/${1%/}" ;;
    esac
}

prefix=$(whole "${1:-/usr/local}")
destination=
[ -z "${DESTDIR:-}" ] || destination=$(whole "$DESTDIR")
root=$destination$prefix
case $prefix in
*[[:space:]\#\$\\\"\']*)
    echo "PREFIX is $prefix: white space, #, \$, \\ and quotation marks can't stand in foringamo.pc" >&2
    exit 2
    ;;
esac

cd "$(dirname "$0")"
version=$(cat VERSION)
# The interface's number, the version's first two: callers that are linked already go on with a library that has the same.
interface=${version%.*}

scripts/archive.sh
# An empty bulletin, for which it builds the program.
./withhold.sh </dev/null

work=$(mktemp -d)
trap 'rm -rf "$work"' EXIT

# put MODE FILE PLACE: installs a file; PLACE is its name under PREFIX.
put() {
    install -d "$root/$(dirname "$3")"
    install -m "$1" "$2" "$root/$3"
}

put_program() {
    # It looks for the program and the version in ../libexec/foringamo, from its own folder.
    put 755 scripts/withhold bin/withhold
    put 755 target/bin/withhold libexec/foringamo/withhold
    put 644 VERSION libexec/foringamo/VERSION
}

put_shared_library() {
    if ! command -v cc >/dev/null; then
        echo 'there is no cc: the shared library is left out'
        return
    fi
    cc -shared -Wl,-z,defs -Wl,-soname,"libforingamo.so.$interface" -o "$work/libforingamo.so" \
        -Wl,--whole-archive target/staticlib/libforingamo.a -Wl,--no-whole-archive
    put 755 "$work/libforingamo.so" "lib/libforingamo.so.$version"
    ln -sf "libforingamo.so.$version" "$root/lib/libforingamo.so.$interface"
    ln -sf "libforingamo.so.$interface" "$root/lib/libforingamo.so"
}

put_pkg_config() {
    cat >"$work/foringamo.pc" <<END
prefix=$prefix
libdir=\${prefix}/lib
includedir=\${prefix}/include

Name: foringamo
Description: What raw HTML is in a bulletin written in Markdown, and what is shown without it or by GitHub's tag filter
Version: $version
Cflags: -I\${includedir}
Libs: -L\${libdir} -lforingamo
END
    put 644 "$work/foringamo.pc" lib/pkgconfig/foringamo.pc
}

put_manual() {
    put 644 man/withhold.1 share/man/man1/withhold.1
    put 644 man/foringamo.3 share/man/man3/foringamo.3
    echo '.so man3/foringamo.3' >"$work/page"
    local function
    for function in $(sed -n 's/^[a-z_]* \(foringamo_[a-z_]*\)(.*/\1/p' include/foringamo.h); do
        put 644 "$work/page" "share/man/man3/$function.3"
    done
}

put_program
put 644 include/foringamo.h include/foringamo.h
put 644 target/staticlib/libforingamo.a lib/libforingamo.a
put_shared_library
put_pkg_config
put_manual
put 644 NOTICE share/doc/foringamo/NOTICE
echo "foringamo $version is in $root"

# Where the loader looks in that folder, it finds the shared library by its cache.
if [ -z "$destination" ] && command -v ldconfig >/dev/null && ldconfig -N -X -v 2>/dev/null | grep -q "^$prefix/lib:"; then
    ldconfig 2>/dev/null || echo 'ldconfig, run as root, makes the shared library known to the loader'
fi
