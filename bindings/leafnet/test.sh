#!/bin/sh
# How leafnet ends: for each kind of call the status, and what stands on standard output and on standard error.
# Run by bindings/test.sh, once the program is made. LEAFMESH_PROGRAM names another file of it.
set -eu
# shellcheck source=../usage.sh
. "$(dirname "$0")/../usage.sh"
take_no_words "$@"
# shellcheck source=../places.sh
. "$(dirname "$0")/../places.sh"
see_places_from_here
cd "$(dirname "$0")"
boards=../../boards
leafnet=${LEAFMESH_PROGRAM:-../../crates/leafnet/out/leafnet}
folder=$(mktemp -d)
trap 'rm -rf "$folder"' EXIT

fail() {
    echo "leafnet/test.sh: $*" >&2
    exit 1
}
# Runs leafnet on this standard input, and looks at its status, at all that it printed, and at all that it said.
ends() { # STATUS PRINTED SAID WORDS..
    status=0
    wanted=$1
    printf '%s' "$2" >"$folder/printed.wanted"
    printf '%s' "$3" >"$folder/said.wanted"
    shift 3
    "$leafnet" "$@" >"$folder/printed" 2>"$folder/said" || status=$?
    [ "$status" = "$wanted" ] || fail "leafnet $* ended with $status, not $wanted: $(cat "$folder/said")"
    cmp -s "$folder/printed.wanted" "$folder/printed" || fail "leafnet $* printed: $(cat "$folder/printed")"
    cmp -s "$folder/said.wanted" "$folder/said" || fail "leafnet $* said: $(cat "$folder/said")"
}
line=$(printf '\nx')
line=${line%x}
version=$(sed -n 's/^#define LEAFMESH_VERSION "\(.*\)"$/\1/p' ../../include/leafmesh.h)

ends 0 "leafnet $version$line" '' --version </dev/null

usage=$("$leafnet" --help)$line
case $usage in
"usage: leafnet [FILE]$line"*) ;;
*) fail "--help printed: $usage" ;;
esac
ends 0 "$usage" '' --help </dev/null
for word in -v --verbose --version=2 -- --help=all; do
    ends 2 '' "$usage" "$word" <"$boards/neck.record"
done
ends 2 '' "$usage" a.record b.record </dev/null
ends 2 '' "$usage" --help --version <"$boards/neck.record"
ends 2 '' "$usage" "$(printf 'board\377')" <"$boards/neck.record"

"$leafnet" <"$boards/neck.record" >"$folder/neck.net"
neck=$(cat "$folder/neck.net")$line
case $neck in
'cells '*) ;;
*) fail "of the neck it printed: $neck" ;;
esac
ends 0 "$neck" '' <"$boards/neck.record"
ends 0 "$neck" '' - <"$boards/neck.record"
ends 0 "$neck" '' "$boards/neck.record" </dev/null
cp "$boards/neck.record" "$folder/-v"
(cd "$folder" && cp -- -v 'a b')
ends 0 "$neck" '' "$folder/-v" </dev/null
ends 0 "$neck" '' "$folder/a b" </dev/null

# The words of all ten refusals are the Rust crate's, in their order.
quoted() { sed -n "/$1/,/^[]}]/s/.*\"\(.*\)\".*/\1/p" "$2"; }
quoted '^fn words' ../../crates/leafnet_command/src/ending.rt >"$folder/words"
quoted '^const KNOWN' ../rust/src/refusal.rs | diff "$folder/words" - || fail "the Rust crate has other words"
[ "$(wc -l <"$folder/words")" = 10 ] || fail "there are words for $(wc -l <"$folder/words") refusals"
# Some of them, on both ends.
refused() { # NUMBER PLACE WORDS, of this standard input
    cat >"$folder/record"
    ends 1 "refused $1 $2$line" "leafnet: refused $1 $2: $3$line" <"$folder/record"
    ends 1 "refused $1 $2$line" "leafnet: refused $1 $2: $3$line" "$folder/record" </dev/null
}
refused 1 0 'the record is not of version 1' <"$boards/neck.txt"
refused 2 0 'the record is cut short, too long, or gives a wrong length' </dev/null
refused 6 0 'a lent row is too short' <"$boards/deep.record"

missing="$folder/no.record"
ends 1 '' "leafnet: $missing: No such file or directory (os error 2)$line" "$missing" <"$boards/neck.record"
ends 1 '' "leafnet: : No such file or directory (os error 2)$line" '' <"$boards/neck.record"
ends 1 '' "leafnet: $folder: Is a directory (os error 21)$line" "$folder" <"$boards/neck.record"
ends 1 '' "leafnet: cannot read standard input: Is a directory (os error 21)$line" <"$folder"
ends 1 '' "leafnet: cannot read standard input: Bad file descriptor (os error 9)$line" <&-

# Standard output that takes nothing. What is said stands on standard error, whatever was to be printed.
unwritten() { # WHY WORDS..
    why=$1
    shift
    status=0
    "$leafnet" "$@" <"$folder/input" >"$out" 2>"$folder/said" || status=$?
    [ "$status" = 1 ] || fail "leafnet $* >$out ended with $status"
    [ "$(cat "$folder/said")" = "leafnet: cannot write standard output: $why" ] ||
        fail "leafnet $* >$out said: $(cat "$folder/said")"
}
out=/dev/full
for input in "$boards/neck.record" "$boards/deep.record"; do
    cp "$input" "$folder/input"
    unwritten 'No space left on device (os error 28)'
    unwritten 'No space left on device (os error 28)' --help
    unwritten 'No space left on device (os error 28)' --version
    # And standard error that takes nothing: the status is left.
    status=0
    "$leafnet" <"$input" >/dev/full 2>/dev/full || status=$?
    [ "$status" = 1 ] || fail "with both ends full it ended with $status"
done
