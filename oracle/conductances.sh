#!/bin/sh
# Prints what the net's conductances say of boards whose resistance is known, and holds each net to the original's.
# docs/CONDUCTANCES.md has what it prints.
#
# Exits with 1 if a number differs. With LEAFMESH_LIBRARY set, the port isn't made but taken from there.
set -eu
# shellcheck source=../bindings/usage.sh
. "$(dirname "$0")/../bindings/usage.sh"
take_no_words "$@"
# shellcheck source=../bindings/places.sh
. "$(dirname "$0")/../bindings/places.sh"
see_places_from_here
cd "$(dirname "$0")"
. ./setup.sh
[ -n "${LEAFMESH_LIBRARY:-}" ] || ../bindings/library.sh
exec cargo run --offline --release --quiet -p conductances
