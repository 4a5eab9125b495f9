#!/bin/sh
# install.sh PREFIX: puts the header, the library, files for pkg-config and CMake, and the programs under PREFIX
# (include, lib, lib/pkgconfig, lib/cmake/leafmesh, bin), and says which settings find them there.
# install.sh --version: says which version that is.
#
# The library is libleafmesh.a and, made of it where there is a C compiler for x86-64 (cc, or the one that CC names),
# the shared library with its links. The programs are leafnet and the tools board, draw and relax, which need cargo and
# cc. What can't be made here is left out, and a line says so. With DESTDIR set all of it goes below that folder, and
# the files still say PREFIX.
#
# libleafmesh.a and leafnet are made first unless they are there. LEAFMESH_LIBRARY names a folder to take the library
# from, and then nothing is proved: LEAFMESH_PROGRAM names leafnet's file. cargo builds in CARGO_TARGET_DIR where that
# is set.
set -eu
root=$(cd "$(dirname "$0")" && pwd)
# shellcheck source=bindings/usage.sh
. "$root/bindings/usage.sh"
# shellcheck source=bindings/places.sh
. "$root/bindings/places.sh"
# shellcheck source=bindings/linking/version.sh
. "$root/bindings/linking/version.sh"
version=$(version_of "$root/include/leafmesh.h")
series=$(series_of "$version")
if [ "$#${1:-}" = "1--version" ]; then
    echo "$version"
    exit 0
fi
take_names 1 1 "PREFIX | --version" "$@"
see_places_from_here

fail() {
    echo "install.sh: $*" >&2
    exit 1
}
left_out() { echo "install.sh: no $*" >&2; }

# A word as the shell reads it.
quoted() {
    case $1 in
    *[!A-Za-z0-9_/.+,:@%-]*) printf "'%s'" "$(printf %s "$1" | sed "s/'/'\\\\''/g")" ;;
    *) printf %s "$1" ;;
    esac
}

# Writes what a template says of this version and prefix. pkg-config reads the prefix between double quotes, and # as
# the start of a comment; sed reads what pkg-config is to read.
write_by() { # TEMPLATE TO
    written=$(printf %s "$prefix" | sed 's/[\\"`$]/\\&/g; s/#/\\#/g' | sed 's/[\\&|]/\\&/g')
    sed "s|@VERSION@|$version|; s|@SERIES@|$series|; s|@PREFIX@|$written|" "$root/bindings/linking/$1.in" >"$2/$1"
    chmod 644 "$2/$1"
}

line_break='
'
case $1 in
*"$line_break"* | *"\${"*) fail "a prefix with a line break or \${ is none that pkg-config can read" ;;
/*) prefix=$1 ;;
*) prefix=$(pwd)/$1 ;;
esac
prefix=${prefix%/}
leafnet=${LEAFMESH_PROGRAM:-}
no_leafnet="LEAFMESH_PROGRAM names none, beside the library that LEAFMESH_LIBRARY names"
if [ -z "${LEAFMESH_LIBRARY:-}" ]; then
    own=leafnet
    if [ -n "$leafnet" ]; then
        own=
    elif ! command -v rt >/dev/null && ! "$root/bindings/library.sh" leafnet 2>/dev/null; then
        no_leafnet="it is to be made, and there is no rt"
        own=
    fi
    "$root/bindings/library.sh" leafmesh $own
    [ -z "$own" ] || leafnet=$root/crates/leafnet/out/leafnet
fi
archive=${LEAFMESH_LIBRARY:-$root/crates/leafmesh/out}/libleafmesh.a
[ -f "$archive" ] || fail "no $archive"
[ -z "$leafnet" ] || [ -f "$leafnet" ] || fail "no $leafnet"
made=$(mktemp -d)
trap 'rm -rf "$made"' EXIT
# All is made before anything is put anywhere.
if compiler_is_there; then
    "$root/bindings/linking/shared.sh" "$archive" "$made" ||
        fail "no shared library can be made of $archive by ${CC:-cc}; nothing is installed"
else
    left_out "shared library: that needs a C compiler for x86-64, cc or the one that CC names"
fi
[ -n "$leafnet" ] || left_out "leafnet: $no_leafnet"
tools=
if builder_is_there; then
    tools=$(tools_in "$root/bindings/rust")
    # shellcheck disable=SC2086
    built=$(build_tools "$root/bindings/rust" "$made/target" $tools) ||
        fail "the tools $tools can't be built by cargo; nothing is installed"
else
    left_out "tools: they need cargo and cc"
fi

to=${DESTDIR:-}$prefix
install -d "$to/include" "$to/lib/pkgconfig" "$to/lib/cmake/leafmesh" "$to/bin"
install -m 644 "$root/include/leafmesh.h" "$to/include/"
install -m 644 "$archive" "$to/lib/"
# One that is there from before would be linked with this header.
rm -f "$to/lib/libleafmesh.so"
if [ -e "$made/libleafmesh.so" ]; then
    install -m 755 "$made/libleafmesh.so.$version" "$to/lib/"
    cp -P "$made/libleafmesh.so" "$made/libleafmesh.so.$series" "$to/lib/"
fi
[ -z "$leafnet" ] || install -m 755 "$leafnet" "$to/bin/leafnet"
for tool in $tools; do
    install -m 755 "$built/$tool" "$to/bin/"
done
for file in leafmesh.pc leafmesh-static.pc; do
    write_by $file "$to/lib/pkgconfig"
done
for file in leafmeshConfig.cmake leafmeshConfigVersion.cmake; do
    write_by $file "$to/lib/cmake/leafmesh"
done

echo "leafmesh $version is in $to"
echo "for pkg-config: export PKG_CONFIG_PATH=$(quoted "$prefix/lib/pkgconfig")"
echo "for CMake: export CMAKE_PREFIX_PATH=$(quoted "${prefix:-/}")"
[ -z "$leafnet$tools" ] ||
    echo "for the programs: export PATH=$(quoted "$prefix/bin"):\"\$PATH\""
[ ! -e "$to/lib/libleafmesh.so" ] ||
    echo "for programs that load the shared library: export LD_LIBRARY_PATH=$(quoted "$prefix/lib")"
