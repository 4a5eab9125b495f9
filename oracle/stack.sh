#!/bin/sh
# Prints how many bytes of stack each call of the port takes, and its program leafnet.
#
#   stack.sh
#
# With LEAFMESH_LIBRARY or LEAFMESH_PROGRAM set, the port isn't made but taken from there.
set -eu
# shellcheck source=../bindings/usage.sh
. "$(dirname "$0")/../bindings/usage.sh"
take_no_words "$@"
# shellcheck source=../bindings/places.sh
. "$(dirname "$0")/../bindings/places.sh"
see_places_from_here
cd "$(dirname "$0")"
. ./setup.sh
make_what_is_not_named ..
library=${LEAFMESH_LIBRARY:-../crates/leafmesh/out}
program=${LEAFMESH_PROGRAM:-../crates/leafnet/out/leafnet}

folder=$(mktemp -d)
trap 'rm -rf "$folder"' EXIT
# All is bound at the start (now), or the loader's search for memset would run on the painted stack.
"${CARGO_TARGET_X86_64_UNKNOWN_LINUX_GNU_LINKER:-cc}" -std=gnu11 -O2 -Wall -Wextra -Werror -Wl,-z,now \
    -I ../include stack/stack.c "$library/libleafmesh.a" -o "$folder/stack"
# shellcheck disable=SC2086
${LEAFMESH_RUNNER:-} "$folder/stack"

# The program: the least limit, by pages, with which it prints the sample boards, some times each as the system begins a
# stack at random. What the system and the loader put there counts, too. The emulator keeps other limits.
[ -z "${LEAFMESH_RUNNER:-}" ] || exit 0
set -- ../boards/*.record
set -- "$@" "$@" "$@" "$@"
prints_all() { # LIMIT BOARD...
    limit=$1
    shift
    for board in "$@"; do
        status=0
        prlimit --stack="$limit" env -i "$program" <"$board" >"$folder/printed" || status=$?
        # A board that it refuses ends it with 1.
        [ "$status" -le 1 ] && [ -s "$folder/printed" ] || return 1
    done
}
pages=4
until prints_all $((4096 * pages)) "$@" 2>"$folder/said"; do
    pages=$((pages + 1))
    [ "$pages" -lt 256 ] || {
        cat "$folder/said" >&2
        exit 1
    }
done
echo "program leafnet: stack $((4096 * pages)) of $# runs"
