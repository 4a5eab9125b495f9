#!/bin/sh
# test.sh: installs into folders of several names, runs the programs that are there, and links others with what is
# there: the shared library and the static one, by pkg-config and by CMake, and by the commands of docs/LINKING.md. Says
# what it leaves out, and why.
set -eu
# shellcheck source=../usage.sh
. "$(dirname "$0")/../usage.sh"
take_no_words "$@"
# shellcheck source=../places.sh
. "$(dirname "$0")/../places.sh"
see_places_from_here
cd "$(dirname "$0")"
# shellcheck source=version.sh
. ./version.sh
# shellcheck source=../python/which.sh
. ../python/which.sh
root=$(cd ../.. && pwd)
version=$(version_of "$root/include/leafmesh.h")
series=$(series_of "$version")
for tool in cc c++ pkg-config nm readelf; do
    command -v "$tool" >/dev/null || {
        echo "linking: needs $tool" >&2
        exit 1
    }
done
[ -n "${LEAFMESH_LIBRARY:-}" ] || ../library.sh
LEAFMESH_LIBRARY=${LEAFMESH_LIBRARY:-$root/crates/leafmesh/out}
export LEAFMESH_LIBRARY
folder=$(mktemp -d)
trap 'rm -rf "$folder"' EXIT
# leafnet is put as it is, so that where none is named another program stands for it.
if [ -z "${LEAFMESH_PROGRAM:-}" ]; then
    LEAFMESH_PROGRAM=$folder/leafnet
    printf '#!/bin/sh\necho leafnet %s\n' "$version" >"$LEAFMESH_PROGRAM"
fi
export LEAFMESH_PROGRAM

fail() {
    echo "linking: $*" >&2
    exit 1
}
same() { # WHAT WANTED FOUND
    [ "$2" = "$3" ] || fail "$1: '$3', not '$2'"
}
needed() { readelf -d "$1" | sed -n 's/.*(NEEDED).*\[\(.*\)\]/\1/p'; }
needs_shared() { # PROGRAM
    same "$1 needs" "libleafmesh.so.$series" "$(needed "$1" | grep leafmesh)"
}
needs_no_shared() { # PROGRAM
    if needed "$1" | grep leafmesh >&2; then fail "$1 needs the shared library"; fi
}
# The C example prints what it should.
runs() { # PROGRAM
    "$1" >"$folder/printed" || fail "$1 ended with $?"
    diff ../c/expected.txt "$folder/printed" >&2 || fail "$1 printed other things"
}
# The C example by what pkg-config says.
builds() { # PROGRAM PACKAGE
    rm -f "$1"
    eval "cc -std=c11 ../c/outline_to_net.c $(pkg-config --cflags --libs "$2") -o \"\$1\""
}

# The shared library: the header's calls, and nothing that it can do without.
look_at_shared() { # LIBRARY
    cc -E -P "$root/include/leafmesh.h" | tr '\n' ' ' | sed 's/[;}]/\n/g' |
        sed -n 's/^ *[a-z_]* \(leafmesh_[a-z_]*\)(.*/\1/p' | LC_ALL=C sort >"$folder/calls"
    [ "$(wc -l <"$folder/calls")" -ge 15 ] || fail "the header has too few calls: $(cat "$folder/calls")"
    nm -D --defined-only "$1" | sed 's/.* //' | LC_ALL=C sort >"$folder/exported"
    diff "$folder/calls" "$folder/exported" >&2 || fail "the header's calls (<) aren't what is exported (>)"
    nm -D --undefined-only "$1" | sed 's/.* //; s/@.*//' >"$folder/undefined"
    if grep -vx 'mem[a-z]*' "$folder/undefined" >&2; then fail "needs what is named above"; fi
    same "the shared library needs" libc.so.6 "$(needed "$1")"
    readelf -d "$1" >"$folder/dynamic"
    grep -q "(SONAME).*\[libleafmesh.so.$series\]" "$folder/dynamic" || fail "another soname: $(cat "$folder/dynamic")"
    if grep -q TEXTREL "$folder/dynamic"; then fail "its code isn't position independent"; fi
    readelf -lW "$1" | grep -q 'GNU_STACK.* RW ' || fail "its stack is executable"
    same "the loader's link" "libleafmesh.so.$version" "$(readlink "$1.$series")"
    same "the linker's link" "libleafmesh.so.$series" "$(readlink "$1")"
}

# With the settings that install.sh says.
link_by_pkg_config() { # WHAT INSTALL.SH SAID
    (
        eval "$(sed -n 's/^for .*: export/export/p' "$1")"
        same "version" "$version" "$(pkg-config --modversion leafmesh)"
        builds "$folder/shared" leafmesh
        runs "$folder/shared"
        builds "$folder/static" leafmesh-static
    )
    needs_shared "$folder/shared"
    needs_no_shared "$folder/static"
    runs "$folder/static"
}

# By the setting that install.sh says, wherever the caller is.
run_the_programs() { # PREFIX, WHAT INSTALL.SH SAID
    if ! builder_is_there; then
        echo "linking: the tools in bin left out: they need cargo and cc"
        return
    fi
    (
        eval "$(sed -n 's/^for the programs: //p' "$2")"
        for program in leafnet board draw relax; do
            same "$program" "$1/bin/$program" "$(command -v $program)"
            same "$program" "$program $version" "$($program --version)"
        done
        board solve "$root/boards/across.txt" | grep -q '^V / A .* ohm$' || fail "board solves nothing"
    )
}

# Names that pkg-config has to quote. What it leaves to the shell, a dollar and brackets, xargs reads.
install_under_quoted_names() {
    for name in "it's" 'a "b"' 'back\slash' 'a#b;c&d|e'; do
        "$root/install.sh" "$folder/$name" >/dev/null
        PKG_CONFIG_PATH="$folder/$name/lib/pkgconfig" builds "$folder/quoted" leafmesh-static
        runs "$folder/quoted"
    done
    # shellcheck disable=SC2016
    "$root/install.sh" "$folder"/'a $HOME $(b) `c`' >"$folder/said"
    (
        eval "$(sed -n 's/^for pkg-config: //p' "$folder/said")"
        pkg-config --cflags --libs leafmesh-static
    ) | xargs cc -std=c11 -o "$folder/dollar" ../c/outline_to_net.c
    runs "$folder/dollar"
    # shellcheck disable=SC2016
    for name in 'line
break' 'a${b'; do
        if "$root/install.sh" "$folder/$name" >/dev/null 2>"$folder/said"; then fail "took the prefix $name"; fi
        [ ! -e "$folder/$name" ] || fail "left the prefix $name"
    done
}

# DESTDIR is where files go, and not where they will be; a prefix that isn't absolute is seen from here.
install_elsewhere() {
    DESTDIR=$folder/stage "$root/install.sh" /usr/ >/dev/null
    grep -qx 'prefix=/usr' "$folder/stage/usr/lib/pkgconfig/leafmesh.pc" || fail "leafmesh.pc says another prefix"
    [ -f "$folder/stage/usr/lib/libleafmesh.so.$version" ] || fail "no library below DESTDIR"
    ln -s "$LEAFMESH_LIBRARY" "$folder/library"
    ln -s "$LEAFMESH_PROGRAM" "$folder/program"
    (cd "$folder" && LEAFMESH_LIBRARY=library LEAFMESH_PROGRAM=program "$root/install.sh" near >/dev/null)
    grep -qx "prefix=$folder/near" "$folder/near/lib/pkgconfig/leafmesh.pc" || fail "a near prefix isn't made absolute"
    cmp "$LEAFMESH_PROGRAM" "$folder/near/bin/leafnet" || fail "another leafnet"
}

# With a library that is named nothing is proved, and leafnet is there only where it is named, too.
install_without_leafnet() {
    (unset LEAFMESH_PROGRAM && "$root/install.sh" "$folder/bare" >/dev/null 2>"$folder/said")
    grep -q 'no leafnet: ' "$folder/said" || fail "nothing says that leafnet is left out"
    [ ! -e "$folder/bare/bin/leafnet" ] || fail "a leafnet from nowhere"
    if LEAFMESH_PROGRAM=$folder/no-leafnet "$root/install.sh" "$folder/none" >/dev/null 2>"$folder/said"; then
        fail "installed without the leafnet that is named"
    fi
    [ ! -e "$folder/none" ] || fail "left $folder/none"
}

# Neither cargo nor a C compiler: the rest, and lines that say so. A cargo that fails is told, and nothing is left.
install_without_cargo() {
    mkdir "$folder/few" "$folder/broken"
    for tool in sh cat chmod cp dirname install ln mkdir mktemp rm sed; do
        ln -s "$(command -v $tool)" "$folder/few/$tool"
    done
    PATH=$folder/few "$root/install.sh" "$folder/lone" >/dev/null 2>"$folder/said" || fail "$(cat "$folder/said")"
    grep -q 'no tools: they need cargo and cc' "$folder/said" || fail "nothing says that tools are left out"
    grep -q 'no shared library' "$folder/said" || fail "nothing says that the shared library is left out"
    same "programs without cargo" leafnet "$(ls "$folder/lone/bin")"
    [ -f "$folder/lone/lib/libleafmesh.a" ] || fail "no library without cargo"
    printf '#!/bin/sh\nexit 101\n' >"$folder/broken/cargo"
    chmod +x "$folder/broken/cargo"
    if PATH=$folder/broken:$PATH "$root/install.sh" "$folder/none" >/dev/null 2>"$folder/said"; then
        fail "installed without tools"
    fi
    grep -q 'nothing is installed' "$folder/said" || fail "a failing cargo isn't told: $(cat "$folder/said")"
    [ ! -e "$folder/none" ] || fail "left $folder/none"
}

# A compiler that can't is told, and nothing is left.
install_with_a_compiler_that_fails() { # PREFIX
    # shellcheck disable=SC2016
    printf '#!/bin/sh\n[ "$1" = -dumpmachine ] && echo x86_64-linux-gnu\n' >"$folder/failing"
    chmod +x "$folder/failing"
    if CC=$folder/failing "$root/install.sh" "$1" >/dev/null 2>"$folder/said"; then fail "installed all the same"; fi
    grep -q 'nothing is installed' "$folder/said" || fail "a failing compiler isn't told: $(cat "$folder/said")"
    [ ! -e "$1" ] || fail "left $1"
}

# The static library alone, and a line that says so, over an older version.
install_without_compiler() { # PREFIX
    mkdir -p "$1/lib"
    touch "$1/lib/libleafmesh.so.0.1.0"
    ln -s libleafmesh.so.0.1.0 "$1/lib/libleafmesh.so"
    CC=$folder/no-compiler "$root/install.sh" "$1" >"$folder/settings" 2>"$folder/said"
    grep -q 'no shared library' "$folder/said" || fail "nothing says that the shared library is left out"
    if grep -q LD_LIBRARY_PATH "$folder/settings"; then fail "a setting for a shared library that isn't there"; fi
    [ ! -e "$1/lib/libleafmesh.so" ] || fail "an older shared library would be linked with this header"
    [ -e "$1/lib/libleafmesh.so.0.1.0" ] || fail "programs of before lack their library"
    PKG_CONFIG_PATH=$1/lib/pkgconfig builds "$folder/alone" leafmesh
    runs "$folder/alone"
}

# The commands of docs/LINKING.md, block by block.
block_of_the_page() { # NUMBER
    awk -v wanted="$1" '/^```sh$/ { at++; inside = 1; next } /^```$/ { inside = 0 } inside && at == wanted' \
        "$root/docs/LINKING.md"
}
lacks() { # BLOCK
    case $1 in
    *cmake*) command -v cmake >/dev/null || echo cmake ;;
    *cargo* | *"board solve"*) builder_is_there || echo "cargo and cc" ;;
    *python3*) [ -n "$python" ] || echo "python3 with numpy" ;;
    esac
}
do_as_the_page_says() {
    python=$(python_with_numpy)
    mkdir "$folder/bin"
    [ -z "$python" ] || ln -s "$python" "$folder/bin/python3"
    number=1
    while block=$(block_of_the_page $number) && [ -n "$block" ]; do
        missing=$(lacks "$block")
        if [ -n "$missing" ]; then
            echo "linking: block $number of docs/LINKING.md left out: that needs $missing"
        else
            (cd "$root" && PREFIX=$folder/by_page PATH=$folder/bin:$PATH sh -eu -c "$block") >"$folder/said" 2>&1 ||
                fail "docs/LINKING.md, block $number: $(cat "$folder/said")"
        fi
        number=$((number + 1))
    done
    [ $number -gt 7 ] || fail "docs/LINKING.md has too few blocks of commands"
}

configures() { # PREFIX VERSION
    rm -rf "$folder/built"
    cmake -S cmake -B "$folder/built" -DCMAKE_PREFIX_PATH="$1" -DLEAFMESH_VERSION="$2" >"$folder/said" 2>&1
}
link_by_cmake() { # PREFIX
    configures "$1" "$series" || fail "CMake: $(cat "$folder/said")"
    cmake --build "$folder/built" >"$folder/said" 2>&1 || fail "CMake: $(cat "$folder/said")"
    runs "$folder/built/outline_to_net"
    "$folder/built/ring" 12 | grep -q "^leafmesh $version: " || fail "CMake: ring printed other things"
    needs_no_shared "$folder/built/ring"
}
ask_cmake_for_versions() { # PREFIX
    for wanted in "" "$version" "$version;EXACT" "0.1...$version" "$version...<99"; do
        configures "$1" "$wanted" || fail "CMake: version $wanted isn't found: $(cat "$folder/said")"
    done
    for wanted in "$series.999" "0.$series" 0.1 0.1.0 "${series}1" 99 "0.1;EXACT" "0.1...<$version" "99...100"; do
        if configures "$1" "$wanted"; then fail "CMake: version $wanted is found"; fi
        grep -q 'leafmesh' "$folder/said" || fail "CMake: $(cat "$folder/said")"
    done
}

# Over what is there from before, too.
"$root/install.sh" "$folder/a b" >"$folder/said"
"$root/install.sh" "$folder/a b" >"$folder/said"
look_at_shared "$folder/a b/lib/libleafmesh.so"
link_by_pkg_config "$folder/said"
run_the_programs "$folder/a b" "$folder/said"
install_under_quoted_names
install_elsewhere
install_without_leafnet
install_without_cargo
install_with_a_compiler_that_fails "$folder/none"
install_without_compiler "$folder/old"
do_as_the_page_says
if command -v cmake >/dev/null; then
    # The prefix names itself nowhere.
    mv "$folder/a b" "$folder/moved there"
    link_by_cmake "$folder/moved there"
    needs_shared "$folder/built/outline_to_net"
    link_by_cmake "$folder/old"
    needs_no_shared "$folder/built/outline_to_net"
    ask_cmake_for_versions "$folder/moved there"
else
    echo "linking: CMake left out: that needs cmake"
fi
echo "linking: as expected"
