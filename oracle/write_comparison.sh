#!/bin/sh
# Runs the whole comparison and writes docs/COMPARISON.md from what it prints.
#
#   write_comparison.sh [COUNT [SEED]]
#
# Exits with 1 if anything differs; what was run is written then, too.
set -eu
# shellcheck source=../bindings/usage.sh
. "$(dirname "$0")/../bindings/usage.sh"
take_count_and_seed "$@"
cd "$(dirname "$0")"

said=$(mktemp)
trap 'rm -f "$said"' EXIT
same=0
./compare.sh all "$@" >"$said" || same=$?
# Unless the last group ended, something failed before it.
tail -n 1 "$said" | grep -q '^leafnet: .* s, count ' || exit 2

awk -v words="$*" -f comparison.awk "$said" >../docs/COMPARISON.md
cat ../docs/COMPARISON.md
exit "$same"
