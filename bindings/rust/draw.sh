#!/bin/sh
# draw.sh BOARD [OUT]: the mesh of a board (its record or its text) as OUT.svg, the borders between its cells as
# OUT-borders.svg, and, where its text has terminals, its cells by power density as OUT-power.svg. All files are
# written, or none, and their names are printed.
#
# OUT is the board's name without its ending unless it is given; in a folder that is there its files have the board's
# name. The library is made first unless it is there, or taken from the folder that LEAFMESH_LIBRARY names; cargo builds
# in CARGO_TARGET_DIR where that is set. All names are seen from the folder in which draw.sh is called.
set -eu
# shellcheck source=../usage.sh
. "$(dirname "$0")/../usage.sh"
take_names 1 2 "BOARD [OUT]" "$@"
# shellcheck source=../places.sh
. "$(dirname "$0")/../places.sh"
see_places_from_here
here=$(cd "$(dirname "$0")" && pwd)

fail() {
    echo "draw.sh: $*" >&2
    exit 1
}

board=$1
name=${board%.record}
name=${name%.txt}
out=${2:-$name}
[ $# = 1 ] || [ ! -d "$out" ] || out=${out%/}/$(basename "$name")
to=$(dirname "$out")
# What can't be is told before anything is proved or built.
[ -f "$board" ] || fail "there is no file $board"
[ -r "$board" ] || fail "$board can't be read"
[ -d "$to" ] || fail "there is no folder $to"
[ -w "$to" ] || fail "$to can't be written: name another place for the pictures, draw.sh $board OUT"

[ -n "${LEAFMESH_LIBRARY:-}" ] || "$here/../library.sh"
# Beside the pictures, so that the last step is a rename.
made=$(mktemp -d "$to/.draw.XXXXXX")
trap 'rm -rf "$made" "${spare:-$made}"' EXIT
trap 'exit 1' HUP INT TERM
spare=$(mktemp -d)
bin=$(build_tools "$here" "$spare" draw)
picture() { "$bin/draw" --board "$board" --title "$(basename "$name")" "$@"; }
picture >"$made/.svg"
picture --borders >"$made/-borders.svg"
kinds=".svg -borders.svg"
if grep -q '^[[:space:]]*terminal[[:space:]]' "$board"; then
    picture --power >"$made/-power.svg"
    kinds=".svg -power.svg -borders.svg"
else
    echo "draw.sh: no power is drawn, since $board has no terminals: where current enters and leaves" >&2
fi
files=
for kind in $kinds; do
    mv "$made/$kind" "$out$kind"
    files="$files $out$kind"
done
echo "${files# }"
