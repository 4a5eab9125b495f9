#!/bin/sh
# Installs header and library into a folder of its own, builds the C programs against the static one by pkg-config, as
# C99 and C11 and what can be as C++17, with every warning an error, runs them, and holds what they print to what is
# expected.
set -eu
# shellcheck source=../usage.sh
. "$(dirname "$0")/../usage.sh"
take_no_words "$@"
# shellcheck source=../places.sh
. "$(dirname "$0")/../places.sh"
see_places_from_here
cd "$(dirname "$0")"
for tool in cc c++ pkg-config; do
    command -v "$tool" >/dev/null || {
        echo "run.sh: needs $tool" >&2
        exit 1
    }
done
[ -n "${LEAFMESH_LIBRARY:-}" ] || ../library.sh
LEAFMESH_LIBRARY=${LEAFMESH_LIBRARY:-$(cd ../.. && pwd)/crates/leafmesh/out}
export LEAFMESH_LIBRARY
folder=$(mktemp -d)
trap 'rm -rf "$folder"' EXIT
../../install.sh "$folder/prefix" >/dev/null
export PKG_CONFIG_PATH="$folder/prefix/lib/pkgconfig"
cflags=$(pkg-config --cflags leafmesh)
libs=$(pkg-config --libs leafmesh-static)
strict="-Wall -Wextra -pedantic -Werror"
echo '#include <leafmesh.h>' >"$folder/header.c"
# shellcheck disable=SC2086
{
    cc -std=c99 $strict $cflags -c "$folder/header.c" -o "$folder/header.o"
    cc -std=c11 $strict $cflags -c "$folder/header.c" -o "$folder/header.o"
    c++ -x c++ -std=c++17 $strict $cflags -c "$folder/header.c" -o "$folder/header.o"
    cc -std=c11 $strict $cflags outline_to_net.c $libs -o "$folder/outline_to_net"
    cc -std=c99 $strict $cflags ring.c $libs -o "$folder/ring_c99"
    cc -std=c11 $strict $cflags ring.c $libs -o "$folder/ring_c"
    c++ -std=c++17 $strict $cflags -x c++ ring.c -x none $libs -o "$folder/ring_cpp"
}
"$folder/outline_to_net" >"$folder/printed.txt"
diff expected.txt "$folder/printed.txt"
version=$(pkg-config --modversion leafmesh)
echo "leafmesh $version: 48 points, 13 strips, 96 ticks on the back, 816 bytes, 140 cells" >"$folder/expected.txt"
for ring in ring_c99 ring_c ring_cpp; do
    "$folder/$ring" 12 >"$folder/printed.txt"
    diff "$folder/expected.txt" "$folder/printed.txt"
done
echo "c: as expected"
