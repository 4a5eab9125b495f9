#!/bin/sh
# library.sh [leafmesh] [leafnet]: makes the library crates/leafmesh/out/libleafmesh.a and the program
# crates/leafnet/out/leafnet, or the one of them that is named; without a name the library. What is there and made of
# what stands here stays. Says nothing where there is nothing to do.
#
# A crate that both stand on is proved once, for the one that is made first.
#
# Each is made of its own crate and the crates below that, by crates.txt: of each its line there, src, specs and proofs.
# A sum of these and of what was made stands beside it, with the ending .sum; the times of files count for nothing.
set -eu
# shellcheck source=usage.sh
. "$(dirname "$0")/usage.sh"
take_names 0 2 "[leafmesh] [leafnet]" "$@"
case "$*" in
'' | leafmesh | leafnet | "leafmesh leafnet" | "leafnet leafmesh") ;;
*) refuse_words "[leafmesh] [leafnet]" ;;
esac
cd "$(dirname "$0")/.."

# The lines of crates.txt of this crate and of those below it. A name without a line is one of the kit's.
lines() {
    awk -v top="$crate" '
        { sub(/#.*/, ""); $1 = $1 }
        NF { split($0, head, "[ :]"); line[head[1]] = $0 }
        function walk(name, used, uses, i) {
            if (name in seen || !(name in line)) return
            seen[name]
            print line[name]
            uses = split(substr(line[name], index(line[name], ":") + 1), used, " ")
            for (i = 1; i <= uses; i++) walk(used[i])
        }
        END { walk(top) }' crates.txt
}

# What the compiler takes of these crates, by name and content.
sources() {
    lines
    lines | sed 's/[ :].*//' | while read -r name; do
        find "crates/$name" \( -path "crates/$name/src/*" -o -path "crates/$name/specs/*" \
            -o -path "crates/$name/proofs/*" -o -path "crates/$name/BUILD.bazel" \) -type f -exec sha256sum {} +
    done | LC_ALL=C sort
}

# The sum of some sources and of what was made of them.
sum_with() { { printf '%s\n' "$1" && sha256sum <"$made"; } | sha256sum; }

fail() {
    echo "library.sh: $*" >&2
    exit 1
}

# Makes what a crate is for, by this command, unless it is there. A variable names one that is made elsewhere.
make() { # CRATE MADE VARIABLE COMMAND
    crate=$1 made=$2 variable=$3 command=$4
    now=$(sources)
    if [ -f "$made" ] && [ -f "$made.sum" ] && [ "$(sum_with "$now")" = "$(cat "$made.sum")" ]; then
        return
    fi
    command -v rt >/dev/null || fail "$made is to be made by \`$command\` in crates/$crate, and there is no rt" \
        "(README.md, \"Run it\"); $variable names one that is made elsewhere"
    [ -w "crates/$crate" ] || fail "$made is to be made, and crates/$crate can't be written; $variable names one that" \
        "is made elsewhere"
    echo "$command in crates/$crate: the first run proves every crate it needs, in a quarter of an hour or more" >&2
    (cd "crates/$crate" && $command >"$log" 2>&1 </dev/null) || {
        tail -n 20 "$log" >&2
        exit 1
    }
    [ -f "$made" ] || fail "\`$command\` ended well in crates/$crate, and there is no $made"
    # Of the sources as they stood before: what was edited meanwhile may not be in it.
    sum_with "$now" >"$made.sum"
}

log=$(mktemp)
trap 'rm -f "$log"' EXIT
for name in "${@:-leafmesh}"; do
    case $name in
    leafmesh) make leafmesh crates/leafmesh/out/libleafmesh.a LEAFMESH_LIBRARY "rt lib" ;;
    # It is run once, for its version.
    leafnet) make leafnet crates/leafnet/out/leafnet LEAFMESH_PROGRAM "rt run -- --version" ;;
    esac
done
