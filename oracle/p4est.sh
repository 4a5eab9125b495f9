#!/bin/sh
# Balance beside p4est's balance (Debian: libp4est-dev, libopenmpi-dev) on the same forests: the leaves are compared as
# rectangles, and both balances are timed. Where p4est isn't installed a line says so, and that is all.
#
#   p4est.sh
#
# Exits with 1 if leaves differ. With LEAFMESH_LIBRARY set the port's library is taken from there and not made.
set -eu
# shellcheck source=../bindings/usage.sh
. "$(dirname "$0")/../bindings/usage.sh"
take_no_words "$@"
# shellcheck source=../bindings/places.sh
. "$(dirname "$0")/../bindings/places.sh"
see_places_from_here
cd "$(dirname "$0")"

folder=$(mktemp -d)
trap 'rm -rf "$folder"' EXIT
echo '#include <p4est.h>' >"$folder/there.c"
if [ "$(uname -m)" != x86_64 ] || ! mpicc -c "$folder/there.c" -o "$folder/there.o" 2>/dev/null; then
    echo "p4est left out: it needs x86-64 and Debian's libp4est-dev and libopenmpi-dev"
    exit 0
fi
[ -n "${LEAFMESH_LIBRARY:-}" ] || ../bindings/library.sh
library=${LEAFMESH_LIBRARY:-../crates/leafmesh/out}
mpicc -std=c11 -O2 -Wall -Wextra -Werror -I ../include p4est/driver.c "$library/libleafmesh.a" -lp4est -lsc \
    -o "$folder/driver"
"$folder/driver"
