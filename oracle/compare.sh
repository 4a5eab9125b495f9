#!/bin/sh
# Holds the port and the original side by side.
#
#   compare.sh [CALLS [COUNT [SEED]]]    CALLS: contact, table, even, later, large, strips, build, record,
#                                        power, network, links, checks, leafnet, or all
#   compare.sh bench [CALLS]             times of both
#   compare.sh heap [CALLS]              the heap that each takes for the benchmarks' calls
#
# Exits with 1 if anything differs. With LEAFMESH_LIBRARY or LEAFMESH_PROGRAM set, the port isn't made
# but taken from there.
set -eu
# shellcheck source=../bindings/usage.sh
. "$(dirname "$0")/../bindings/usage.sh"
answer_help "$@"
groups=$(sed -n 's/.* name: "\([a-z]*\)",.*/\1/p' "$(dirname "$0")/compare/src/main.rs")
take_words() { # [CALLS [COUNT [SEED]]], or bench or heap before CALLS
    most=3
    case ${1:-} in
    bench | heap)
        shift
        most=1
        ;;
    esac
    [ $# -le $most ] && printf 'all\n%s\n' "$groups" | grep -qxF -e "${1:-all}" &&
        is_number "${2:-0}" && is_number "${3:-0}"
}
take_words "$@" || refuse_words "[CALLS [COUNT [SEED]] | bench [CALLS] | heap [CALLS]]"

# shellcheck source=../bindings/places.sh
. "$(dirname "$0")/../bindings/places.sh"
see_places_from_here
cd "$(dirname "$0")"
. ./setup.sh
make_what_is_not_named ..
features=""
if [ "${1:-}" = heap ]; then
    shift
    features=heap
    set -- bench "$@"
fi
exec cargo run --offline --release --quiet -p compare --features "$features" -- "$@"
