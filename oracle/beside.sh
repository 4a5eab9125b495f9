#!/bin/sh
# Times two builds of the library beside each other, in one process, and prints new over old.
#
#   beside.sh OLD [NEW]                   two static libraries of this header; NEW is crates/leafmesh/out/libleafmesh.a
#                                         if not named
#   beside.sh --without-leaves OLD [NEW]  OLD is from before version 0.6.0: its calls take no number of leaves
#
# Such an OLD may also be one whose network takes no links, from before version 0.4.0, or whose by-layer check looks at
# middles alone, from before 0.5.0: where that answers otherwise it is told.
#
# The builds are linked in two orders, and the least time of both counts: where the linker places a loop makes up to a
# fifth of a short call. What takes less than 20 us in both is left out.
set -eu
# shellcheck source=../bindings/usage.sh
. "$(dirname "$0")/../bindings/usage.sh"
differ=
if [ "${1:-}" = --without-leaves ]; then
    differ=-DWITHOUT_LEAVES
    shift
fi
take_names 1 2 "[--without-leaves] OLD [NEW]" "$@"
here=$(cd "$(dirname "$0")" && pwd)
old=$1
new=${2:-$here/../crates/leafmesh/out/libleafmesh.a}
folder=$(mktemp -d)
trap 'rm -rf "$folder"' EXIT

# The old one as one object whose exports alone are seen, under other names.
ld -r --whole-archive "$old" -o "$folder/whole.o"
nm -g --defined-only "$folder/whole.o" | awk '$3 ~ /^leafmesh_/ { print $3 }' >"$folder/names"
awk '{ print $1, "before_" $1 }' "$folder/names" >"$folder/renamed"
objcopy --keep-global-symbols="$folder/names" "$folder/whole.o" "$folder/kept.o"
objcopy --redefine-syms="$folder/renamed" "$folder/kept.o" "$folder/old.o"

grep -qx leafmesh_edge_rows "$folder/names" || differ="$differ -DWITHOUT_LINKS"
# shellcheck disable=SC2086
cc -std=gnu11 -O2 -Wall -Wextra -Werror $differ -I "$here/../include" -c "$here/beside/beside.c" -o "$folder/beside.o"
cc "$folder/beside.o" "$folder/old.o" "$new" -o "$folder/old_first"
ld -r --whole-archive "$new" -o "$folder/new.o"
cc "$folder/beside.o" "$folder/new.o" "$folder/old.o" -o "$folder/new_first"
"$folder/old_first" >"$folder/times"
"$folder/new_first" >>"$folder/times"
awk -F '\t' '
    { row = $1 "\t" $2 }
    !(row in new) { order[++rows] = row; new[row] = $3; old[row] = $4 }
    $3 < new[row] { new[row] = $3 }
    $4 < old[row] { old[row] = $4 }
    END {
        printf "%-12s %-40s %12s %12s %6s\n", "call", "board", "new, us", "old, us", "ratio"
        for (i = 1; i <= rows; i++) {
            split(order[i], at, "\t")
            if (new[order[i]] >= 20 || old[order[i]] >= 20)
                printf "%-12s %-40s %12.1f %12.1f %6.2f\n", at[1], at[2], new[order[i]], old[order[i]],
                    new[order[i]] / old[order[i]]
        }
    }' "$folder/times"
