#!/bin/sh
# The figures of docs/CONDUCTANCES.md, made anew.
#
#   figures.sh             prints them
#   figures.sh --check     exits with 1 if the page has others
#   figures.sh --write     puts them into the page
set -eu
# shellcheck source=usage.sh
. "$(dirname "$0")/usage.sh"
answer_help "$@"
case "$#${1:-}" in
0 | 1--check | 1--write) ;;
*) refuse_words "[--check | --write]" ;;
esac
# shellcheck source=places.sh
. "$(dirname "$0")/places.sh"
see_places_from_here
cd "$(dirname "$0")"
[ -n "${LEAFMESH_LIBRARY:-}" ] || ./library.sh
folder=$(mktemp -d)
trap 'rm -rf "$folder"' EXIT
page=../docs/CONDUCTANCES.md
for name in conductances hottest neck half_bridge; do
    (cd rust && cargo run --offline --release --quiet --example "$name" -- "$folder") >"$folder/$name.txt"
done
# What stands between a comment with an example's name and the next "end" is what that example prints.
awk -v folder="$folder" '
    /^<!-- end -->$/ { inside = 0 }
    !inside { print }
    /^<!-- (conductances|hottest|neck|half_bridge) -->$/ {
        inside = 1
        fence = $2 == "neck" || $2 == "half_bridge" ? "```" : ""
        if (fence) print fence
        while ((getline line < (folder "/" $2 ".txt")) > 0) print line
        if (fence) print fence
    }
' "$page" >"$folder/page.md"
case "${1:-}" in
--write) cat "$folder/page.md" >"$page" ;;
--check) diff "$page" "$folder/page.md" ;;
*) cat "$folder/conductances.txt" "$folder/hottest.txt" "$folder/neck.txt" "$folder/half_bridge.txt" ;;
esac
