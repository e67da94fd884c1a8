#!/usr/bin/env bash
# install.sh, into a temporary folder, with and without DESTDIR: what is installed, that it says one version, and that a user's program is built and run by it.
#
#     tests/install.sh
#
# What is not built yet, or is older than its sources, is built by scripts/archive.sh and withhold.sh; a line says so. Where cc, pkg-config, python3, cargo, nm, readelf or groff is
# not there, a line says what is left out. A line for each check that fails; the last line is 'N passed, M failed'.
cd "$(dirname "$0")/.." || exit 1
unset DESTDIR PKG_CONFIG_PATH PKG_CONFIG_LIBDIR PKG_CONFIG_SYSROOT_DIR LD_LIBRARY_PATH

folder=$(mktemp -d) || exit 1
trap 'rm -rf "$folder"' EXIT
version=$(cat VERSION)
interface=${version%.*}
# Installed as it is, and to be moved to /srv/foringamo later.
plain=$folder/plain
staged=$folder/stage/srv/foringamo

passed=0
failed=0

fails() {
    echo "$1"
    failed=$((failed + 1))
}

# check WHAT COMMAND..: the command ends with status 0.
check() {
    local what=$1
    shift
    if "$@"; then
        passed=$((passed + 1))
    else
        fails "$what"
    fi
}

# same WHAT GOT EXPECTED
same() {
    if [ "$2" = "$3" ]; then
        passed=$((passed + 1))
    else
        fails "$1: $2, not $3"
    fi
}

there() {
    command -v "$1" >/dev/null
}

# prints WHAT COMMAND..: the command writes what examples/expected.txt has.
prints() {
    local what=$1
    shift
    if ! "$@" >"$folder/printed"; then
        fails "$what: the program ended with a status other than 0"
    elif ! cmp -s "$folder/printed" examples/expected.txt; then
        fails "$what: standard output differs from examples/expected.txt"
    else
        passed=$((passed + 1))
    fi
}

# functions: those that the header declares.
functions() {
    sed -n 's/^[a-z_]* \(foringamo_[a-z_]*\)(.*/\1/p' include/foringamo.h | sort
}

# expected_files: what is installed under PREFIX.
expected_files() {
    {
        echo bin/withhold
        echo libexec/foringamo/VERSION
        echo libexec/foringamo/withhold
        echo include/foringamo.h
        echo lib/libforingamo.a
        if there cc; then
            echo lib/libforingamo.so
            echo "lib/libforingamo.so.$interface"
            echo "lib/libforingamo.so.$version"
        fi
        echo lib/pkgconfig/foringamo.pc
        echo share/doc/foringamo/NOTICE
        echo share/man/man1/withhold.1
        echo share/man/man3/foringamo.3
        functions | sed 's|.*|share/man/man3/&.3|'
    } | LC_ALL=C sort
}

# installed_files PREFIX
installed_files() {
    (cd "$1" && find . ! -type d | sed 's|^\./||' | LC_ALL=C sort)
}

# installs WHERE COMMAND..: the command installs all files, and no other, under WHERE.
installs() {
    local where=$1
    shift
    if ! "$@" >"$folder/said" 2>&1; then
        cat "$folder/said"
        fails "$*: ended with a status other than 0"
    elif ! diff <(expected_files) <(installed_files "$where") >"$folder/differs"; then
        cat "$folder/differs"
        fails "$*: other files are installed"
    else
        passed=$((passed + 1))
    fi
}

# refuses WHAT COMMAND..: the command ends with another status than 0.
refuses() {
    local what=$1
    shift
    if "$@" >"$folder/said" 2>&1; then
        fails "$what: not refused"
    else
        passed=$((passed + 1))
    fi
}

# shows WHAT PROGRAM: the program withholds.
shows() {
    (cd / && printf 'door <!-- x -->9\n<div>\nold\n\nok' | "$2") >"$folder/shown" 2>"$folder/said"
    printf 'door 9\n\n\nok' >"$folder/expected"
    check "$1: does not show the added screen" cmp -s "$folder/shown" "$folder/expected"
    check "$1: writes to standard error" test ! -s "$folder/said"
}

# field FILE KEY: what stands behind the key of a .pc file.
field() {
    sed -n "s/^$2[:=] *//p" "$1"
}

one_version() {
    same 'VERSION is three numbers' "$(grep -cE '^[0-9]+\.[0-9]+\.[0-9]+$' VERSION)" 1
    same 'include/foringamo.h' "$(sed -n 's/^#define FORINGAMO_VERSION "\(.*\)"$/\1/p' include/foringamo.h)" "$version"
    same 'rust/Cargo.toml' "$(sed -n 's/^version = "\(.*\)"$/\1/p' rust/Cargo.toml)" "$version"
    same 'man/withhold.1' "$(sed -n 's/^\.TH .*"foringamo \([^"]*\)".*/\1/p' man/withhold.1)" "$version"
    same 'man/foringamo.3' "$(sed -n 's/^\.TH .*"foringamo \([^"]*\)".*/\1/p' man/foringamo.3)" "$version"
    same 'foringamo.pc' "$(field "$plain/lib/pkgconfig/foringamo.pc" Version)" "$version"
    same 'foringamo.pc under DESTDIR' "$(field "$staged/lib/pkgconfig/foringamo.pc" Version)" "$version"
}

places() {
    same 'foringamo.pc' "$(field "$plain/lib/pkgconfig/foringamo.pc" prefix)" "$plain"
    same 'foringamo.pc under DESTDIR' "$(field "$staged/lib/pkgconfig/foringamo.pc" prefix)" /srv/foringamo
    check 'what is installed names DESTDIR' test -z "$(grep -rlF "$folder" "$staged")"
}

# structs FILE: those that it shows, and further names for them, a line for each, without comments and spaces.
structs() {
    sed 's|/\*.*\*/||' "$1" | awk '/^typedef foringamo_/ { gsub(/ /, ""); print } /^typedef struct {/ { inside = 1 } inside { gsub(/ /, ""); line = line $0 } /^}/ { if (inside) print line; inside = 0; line = "" }' | sort
}

manual() {
    local function shown
    for function in $(functions); do
        same "the page of $function" "$(cat "$plain/share/man/man3/$function.3")" '.so man3/foringamo.3'
    done
    # The declarations of the page, less what makes it a page, are those of the header.
    shown=$(sed -n '/^\.SH SYNOPSIS/,/^\.SH DESCRIPTION/s/^\.BI //p' man/foringamo.3 | tr -d '" \n' | sed 's/;/;\n/g' | sort)
    same 'the declarations of man/foringamo.3' "$shown" "$(grep '^[a-z_]* foringamo_[a-z_]*(.*);$' include/foringamo.h | tr -d ' ' | sort)"
    same 'the structs of man/foringamo.3' "$(structs man/foringamo.3)" "$(structs include/foringamo.h)"
    if ! there groff; then
        echo 'there is no groff: the manual pages are not formatted'
        return
    fi
    for page in man/*; do
        same "$page" "$(groff -man -ww -z "$page" 2>&1)" ''
    done
}

# builds NAME FLAGS..: the example in C, by flags, as the program NAME.
builds() {
    local name=$1
    shift
    if ! cc -std=c11 -O2 -Wall -Wextra -Wpedantic -Werror -o "$folder/$name" examples/example.c "$@"; then
        fails "examples/example.c: not compiled with $*"
        return 1
    fi
}

# The example in C, with the archive and with the shared library.
in_c() {
    if ! there cc; then
        echo 'there is no cc: no program is built, and there is no shared library'
        return
    fi
    local flags="-I$plain/include -L$plain/lib -lforingamo"
    local moved="-I$staged/include -L$staged/lib -lforingamo"
    if there pkg-config; then
        flags=$(PKG_CONFIG_PATH=$plain/lib/pkgconfig pkg-config --cflags --libs foringamo)
        moved=$(PKG_CONFIG_PATH=$staged/lib/pkgconfig PKG_CONFIG_SYSROOT_DIR=$folder/stage pkg-config --cflags --libs foringamo)
        same 'pkg-config --modversion' "$(PKG_CONFIG_PATH=$plain/lib/pkgconfig pkg-config --modversion foringamo)" "$version"
    else
        echo 'there is no pkg-config: foringamo.pc is not read'
    fi
    # Flags are words.
    # shellcheck disable=SC2086
    {
        builds shared $flags && prints 'with the shared library' env LD_LIBRARY_PATH="$plain/lib" "$folder/shared"
        builds moved $moved && prints 'with the shared library under DESTDIR' env LD_LIBRARY_PATH="$staged/lib" "$folder/moved"
        builds static -Wl,-Bstatic $flags -Wl,-Bdynamic && prints 'with the archive' "$folder/static"
    }
    refuses 'the program with the shared library, where that is not found' "$folder/shared"

    # The example of the manual page.
    sed -n '/^\.SH EXAMPLES/,/^\.fi/p' man/foringamo.3 | sed '/^\./d; s/\\-/-/g; s/\\e/\\/g' >"$folder/page.c"
    if cc -std=c11 -Wall -Wextra -Wpedantic -Werror -I"$plain/include" -o "$folder/page" "$folder/page.c" "$plain/lib/libforingamo.a"; then
        same 'the example of man/foringamo.3' "$("$folder/page")" 'door 9'
    else
        fails 'the example of man/foringamo.3: not compiled'
    fi
}

shared_library() {
    there cc || return
    local file=$plain/lib/libforingamo.so
    same 'the link libforingamo.so' "$(readlink "$file")" "libforingamo.so.$interface"
    same "the link libforingamo.so.$interface" "$(readlink "$file.$interface")" "libforingamo.so.$version"
    if there readelf; then
        same 'the soname' "$(readelf -d "$file" | sed -n 's/.*(SONAME).*\[\(.*\)\]/\1/p')" "libforingamo.so.$interface"
        same 'what the program with the shared library asks for' "$(readelf -d "$folder/shared" | grep -c "\[libforingamo.so.$interface\]")" 1
        same 'what the program with the archive asks for' "$(readelf -d "$folder/static" | grep -c foringamo)" 0
    else
        echo 'there is no readelf: the soname is not read'
    fi
    if there nm; then
        same 'what the shared library defines' "$(nm -D --defined-only "$file" | awk '{ print $3 }' | sort | paste -sd ' ')" "$(functions | paste -sd ' ')"
    else
        echo 'there is no nm: the names of the shared library are not read'
    fi
}

# The shared library, by Python.
in_python() {
    there cc || return
    if ! there python3; then
        echo 'there is no python3: the shared library is not loaded by it'
        return
    fi
    python3 tests/shared_library.py "$plain/lib/libforingamo.so.$interface" >"$folder/walked" 2>&1
    if [[ ! $(tail -n 1 "$folder/walked") =~ ^([0-9]+)\ passed,\ ([0-9]+)\ failed$ ]]; then
        cat "$folder/walked"
        fails 'tests/shared_library.py: ended without its numbers'
        return
    fi
    passed=$((passed + BASH_REMATCH[1]))
    failed=$((failed + BASH_REMATCH[2]))
    sed '$d' "$folder/walked"
}

# The Rust package, with the installed archive.
in_rust() {
    if ! there cc || ! there cargo; then
        echo 'there is no cc or no cargo: the Rust package is not built with what is installed'
        return
    fi
    # Away from the repository's own archive.
    cp -r rust "$folder/rust"
    prints 'the Rust package' env CARGO_TARGET_DIR="$folder/cargo" FORINGAMO_LIB_DIR="$plain/lib" \
        cargo run --offline --quiet --manifest-path "$folder/rust/Cargo.toml" --example example
    if CARGO_TARGET_DIR="$folder/cargo" FORINGAMO_LIB_DIR='' cargo build --offline --quiet --manifest-path "$folder/rust/Cargo.toml" 2>"$folder/said"; then
        fails 'the Rust package, without an archive: built'
    else
        check 'the Rust package, without an archive: does not say how it finds one' grep -q 'FORINGAMO_LIB_DIR=$(pkg-config --variable=libdir foringamo)' "$folder/said"
    fi
}

if ! scripts/archive.sh 2>&1 || ! ./withhold.sh </dev/null 2>&1; then
    fails 'there is nothing to install'
else
    installs "$plain" ./install.sh "$plain"
    installs "$staged" env DESTDIR="$folder/stage" ./install.sh /srv/foringamo
    # Again, over itself; with a slash at the end; from another folder, to one that is named from there.
    installs "$plain" ./install.sh "$plain/"
    installs "$folder/here" env -C "$folder" "$PWD/install.sh" here
    same 'PREFIX from another folder' "$(field "$folder/here/lib/pkgconfig/foringamo.pc" prefix)" "$folder/here"
    installs "$folder/there/opt" env -C "$folder" DESTDIR=there "$PWD/install.sh" /opt

    refuses 'an option' ./install.sh --nothing
    refuses 'two prefixes' ./install.sh "$folder/one" "$folder/two"
    refuses 'a prefix with a space' ./install.sh "$folder/a b"
    refuses 'a prefix that is a file' ./install.sh "$PWD/VERSION"
    check 'something is installed all the same' test ! -e "$folder/one" -a ! -e "$folder/two" -a ! -e "$folder/a b"

    one_version
    places
    manual
    shows bin/withhold "$plain/bin/withhold"
    same 'bin/withhold --version' "$("$plain/bin/withhold" --version)" "withhold $version"
    head -c 16001 /dev/zero >"$folder/long"
    "$plain/bin/withhold" <"$folder/long" >/dev/null 2>&1
    same 'the status of bin/withhold for 16,001 bytes' "$?" 1
    shows 'bin/withhold under DESTDIR' "$staged/bin/withhold"
    in_c
    shared_library
    in_python
    in_rust
fi

echo "$passed passed, $failed failed"
[ "$failed" -eq 0 ]
