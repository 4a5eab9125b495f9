#!/bin/sh
# Runs all benchmarks and writes docs/BENCHMARK.md from what they print: times of port and original in one run, then in
# other runs the heap that each takes, the stack that the port takes, and balance beside p4est where that is installed.
#
#   write_benchmark.sh
#
# Exits with 1 if answers differ.
set -eu
# shellcheck source=../bindings/usage.sh
. "$(dirname "$0")/../bindings/usage.sh"
take_no_words "$@"
# shellcheck source=../bindings/places.sh
. "$(dirname "$0")/../bindings/places.sh"
see_places_from_here
cd "$(dirname "$0")"

said=$(mktemp)
page=$(mktemp)
trap 'rm -f "$said" "$page"' EXIT
./compare.sh bench >"$said"
# The port has just been made.
LEAFMESH_LIBRARY=${LEAFMESH_LIBRARY:-$(cd .. && pwd)/crates/leafmesh/out}
LEAFMESH_PROGRAM=${LEAFMESH_PROGRAM:-$(cd .. && pwd)/crates/leafnet/out/leafnet}
export LEAFMESH_LIBRARY LEAFMESH_PROGRAM
{
    ./compare.sh heap
    ./stack.sh
    ./p4est.sh
} >>"$said"

awk -f benchmark.awk "$said" benchmark_text.md >"$page"
cp "$page" ../docs/BENCHMARK.md
cat ../docs/BENCHMARK.md
