#!/bin/sh
# All tests of the bindings, tools and examples, from a clean clone on: makes the library and leafnet if need be, then
# says what it runs, and ends with 1 at the first thing that isn't as it should be. With LEAFMESH_LIBRARY or
# LEAFMESH_PROGRAM set they aren't made but taken from there.
set -eu
# shellcheck source=usage.sh
. "$(dirname "$0")/usage.sh"
take_no_words "$@"
# shellcheck source=places.sh
. "$(dirname "$0")/places.sh"
see_places_from_here
cd "$(dirname "$0")"
root=$(cd .. && pwd)
for tool in cargo cc c++ pkg-config; do
    command -v "$tool" >/dev/null || {
        echo "test.sh: needs $tool" >&2
        exit 1
    }
done
make_what_is_not_named "$root"
LEAFMESH_LIBRARY=${LEAFMESH_LIBRARY:-$root/crates/leafmesh/out}
LEAFMESH_PROGRAM=${LEAFMESH_PROGRAM:-$root/crates/leafnet/out/leafnet}
export LEAFMESH_LIBRARY LEAFMESH_PROGRAM
echo "library: $LEAFMESH_LIBRARY"
echo "program: $LEAFMESH_PROGRAM"
leafnet=$LEAFMESH_PROGRAM
folder=$(mktemp -d)
trap 'rm -rf "$folder"' EXIT

say() { echo "== $*"; }
fail() {
    echo "test.sh: $*" >&2
    exit 1
}

say "versions of header, crate and changes"
version=$(sed -n 's/^#define LEAFMESH_VERSION "\(.*\)"$/\1/p' ../include/leafmesh.h)
parts=$(sed -n 's/^#define LEAFMESH_VERSION_[A-Z]* \([0-9]*\)$/\1/p' ../include/leafmesh.h | paste -sd .)
[ "$version" = "$parts" ] || fail "the header says $version and $parts"
grep -qx "version = \"$version\"" rust/Cargo.toml || fail "Cargo.toml has another version than $version"
grep -qx "VERSION = \"$version\"" python/leafmesh/_version.py || fail "_version.py has another version than $version"
# What is still to get a number stands first, as Unreleased.
[ "$(sed -n 's/^## //p' ../CHANGELOG.md | grep -vx Unreleased | head -n 1)" = "$version" ] ||
    fail "CHANGELOG.md doesn't begin with $version"
grep -qx 'license = "MIT OR Apache-2.0"' rust/Cargo.toml || fail "Cargo.toml has another licence"
grep -q 'MIT OR Apache-2.0' ../LICENSE || fail "LICENSE has another licence"

say "pages that a script writes say what the last commit has"
pages=$(git -C "$root" ls-files -- '*design_pages.py' 2>/dev/null) || pages=
if [ -n "$pages" ] && command -v python3 >/dev/null; then
    python3 "$root/$pages"
else
    echo "left out: that needs git, the clone's history and python3"
fi

say "usage of all scripts, when library.sh makes what, and where draw.sh leaves its pictures"
./test_usage.sh
./test_library.sh
rust/test_draw.sh

say "installed, and linked by pkg-config and CMake"
linking/test.sh

say "Python: calls, layouts, and nets of the sample boards"
python/test.sh

say "header and C programs, as C99, C11 and C++17"
c/run.sh

say "Rust: tests, and examples build"
(cd rust && cargo test --offline --quiet)

say "Rust: form, lints and pages, by what cargo has here"
if cargo fmt --version >/dev/null 2>&1; then
    (cd rust && cargo fmt --check)
else
    echo "left out: no rustfmt"
fi
if cargo clippy --version >/dev/null 2>&1; then
    (cd rust && cargo clippy --offline --quiet --all-targets -- -D warnings)
else
    echo "left out: no clippy"
fi
(cd rust && RUSTDOCFLAGS="-D warnings -D missing_docs" cargo doc --offline --quiet --no-deps)

say "the crate from another workspace, beside it and around it"
mkdir -p "$folder/beside/user/src"
printf '[workspace]\nmembers = ["user"]\nresolver = "2"\n' >"$folder/beside/Cargo.toml"
cat >"$folder/beside/user/Cargo.toml" <<USER
[package]
name = "user"
version = "0.0.0"
edition = "2021"
[dependencies]
leafmesh = { path = "$root/bindings/rust" }
USER
cat >"$folder/beside/user/src/main.rs" <<'USER'
fn main() {
    let border = leafmesh::contact([0, 0, 4, 4], [4, 3, 8, 8]).unwrap().unwrap();
    assert_eq!((border.side, border.length), (leafmesh::Side::East, 1));
}
USER
(
    cd "$folder/beside"
    # Found without a word where library.sh leaves it.
    [ "$LEAFMESH_LIBRARY" != "$root/crates/leafmesh/out" ] || unset LEAFMESH_LIBRARY
    CARGO_TARGET_DIR=$folder/built cargo run --offline --quiet -p user
)
cp -r "$folder/beside" "$folder/around"
mkdir -p "$folder/around/leafmesh/bindings"
cp -r rust "$folder/around/leafmesh/bindings/"
rm -rf "$folder/around/leafmesh/bindings/rust/target"
sed -i "s|path = \".*\"|path = \"../leafmesh/bindings/rust\"|" "$folder/around/user/Cargo.toml"
(cd "$folder/around" && CARGO_TARGET_DIR=$folder/built cargo run --offline --quiet -p user)

say "the library's folder is seen from the one in which cargo is called"
ln -s "$LEAFMESH_LIBRARY" "$folder/around/library"
mkdir "$folder/around/elsewhere"
near() { # FOLDER COMMAND
    (cd "$1" && LEAFMESH_LIBRARY=library CARGO_TARGET_DIR=$folder/built cargo "$2" --offline --quiet -p user)
}
near "$folder/around" run
if near "$folder/around/elsewhere" build 2>"$folder/said"; then
    fail "took a library from another folder than the caller's"
fi
grep -q '/around/elsewhere/library: ' "$folder/said" || fail "a missing library isn't told: $(cat "$folder/said")"

say "a missing library is told by name"
without() { (cd "$folder/around" && LEAFMESH_LIBRARY=$folder CARGO_TARGET_DIR=$folder/built cargo build --offline); }
if without 2>"$folder/said"; then
    fail "built without a library"
fi
grep -q 'bindings/library.sh' "$folder/said" || fail "a missing library isn't told: $(cat "$folder/said")"

say "leafnet's text of the sample boards, by the program and by the bindings"
bin=$(build_tools "$root/bindings/rust" "$folder/target" board draw relax)
for record in ../boards/*.record; do
    status=0
    "$leafnet" "$record" >"$folder/leafnet.txt" 2>"$folder/said" || status=$?
    case $record in
    */overlap.record)
        # leafnet goes by the rules; the tools refuse copper that is drawn twice.
        [ "$status" = 0 ] || fail "leafnet ended with $status on $record: $(cat "$folder/said")"
        if "$bin/board" net <"$record" >"$folder/board.txt" 2>"$folder/said"; then
            fail "$record has copper drawn twice, and board net made its net"
        fi
        grep -qF "polygon 1: overlaps polygon 0" "$folder/said" || fail "board net said: $(cat "$folder/said")"
        continue
        ;;
    esac
    "$bin/board" net <"$record" >"$folder/board.txt"
    case $record in
    */across.record | */deep.record | */fine_neck.record | */shunt.record)
        # Past 64 slots.
        [ "$status" = 1 ] || fail "leafnet ended with $status on $record"
        echo 'refused 6 0' | diff - "$folder/leafnet.txt"
        ;;
    *)
        [ "$status" = 0 ] || fail "leafnet ended with $status on $record: $(cat "$folder/said")"
        diff "$folder/leafnet.txt" "$folder/board.txt"
        ;;
    esac
done

say "how leafnet ends: status, standard output and standard error"
leafnet/test.sh

say "outline to net, printed as it should be"
(cd rust && cargo run --offline --quiet --example outline_to_net) | diff rust/examples/outline_to_net.txt -

say "figures of docs/CONDUCTANCES.md, and the neck from outline to pictures"
./figures.sh --check
(cd rust && cargo run --offline --release --quiet --example neck -- "$folder") >/dev/null
for file in neck.svg neck-power.svg neck-borders.svg neck.vtk; do
    [ -s "$folder/$file" ] || fail "no $file"
done
leaves=$(grep -c '<title>leaf ' "$folder/neck.svg")
[ "$leaves" -ge 1500 ] || fail "the neck has $leaves leaves"
borders=$(grep -c '<title>leaves ' "$folder/neck-borders.svg")
[ "$borders" -ge 3000 ] || fail "the neck has $borders borders"

say "two layers joined by vias: currents, pictures and a file"
(cd rust && cargo run --offline --release --quiet --example layers -- "$folder") | diff rust/examples/layers.txt -
for file in layers.svg layers-power.svg layers.vtk; do
    [ -s "$folder/$file" ] || fail "no $file"
done
leaves=$(grep -c '<title>leaf ' "$folder/layers.svg")
[ "$leaves" -ge 1500 ] || fail "the two layers have $leaves leaves"
"$bin/board" net <../boards/vias.txt >"$folder/vias.net"
head -n 1 "$folder/vias.net" | grep -q ' links [1-9]' || fail "no links in the text of vias"
"$bin/relax" --board ../boards/vias.txt <"$folder/vias.net" >"$folder/vias.volts"
"$bin/draw" --record ../boards/vias.txt --potentials "$folder/vias.volts" <"$folder/vias.net" >"$folder/vias.svg"
if "$bin/board" pack <../boards/vias.txt >"$folder/vias.record" 2>"$folder/said"; then
    fail "links went into a record"
fi
grep -qF "a record has no links" "$folder/said" || fail "board pack said: $(cat "$folder/said")"

say "pictures of all sample boards"
# Its coordinates are multiples of 4 ticks, and no longer of a cell from where a strip begins.
sed 's/^target 8$/target 4/' ../boards/overlap.txt | "$bin/board" merge 2>"$folder/said" >"$folder/overlap.txt"
grep -qF "united: lines 6 and 11" "$folder/said" || fail "board merge said: $(cat "$folder/said")"
for board in ../boards/*.txt; do
    # Of copper that is drawn twice there is none, but of what it is when it is united.
    case $board in */overlap.txt) board=$folder/overlap.txt ;; esac
    rust/draw.sh "$board" "$folder/$(basename "$board" .txt)" >/dev/null
done

say "files of a mesh, opened by the programs that they are for"
./files.sh

say "a strip of 300 pitches is told by every tool that makes a net or a picture"
cat >"$folder/long.txt" <<'BOARD'
# The lower strip is 75 mm long.
level 3
pitch 0.25
polygon 1 0 0.0005
0 0
75 0
75 2.5
2.5 2.5
2.5 7.5
0 7.5
BOARD
told="line 5: 300 pitches long; at most 256 base cells"
text=$folder/long.txt
# Of a file the tools say its name first.
tell() {
    status=0
    "$@" <"$text" >"$folder/made" 2>"$folder/said" || status=$?
    [ "$status" = 1 ] || fail "$* ended with $status"
    [ ! -s "$folder/made" ] || fail "$* wrote"
    grep -qF "$told" "$folder/said" || fail "$* said: $(cat "$folder/said")"
}
for command in net vtk msh csv solve; do
    tell "$bin/board" "$command"
done
tell "$bin/draw" --board "$folder/long.txt"
tell "$bin/draw" --board "$folder/long.txt" --power
tell rust/draw.sh "$folder/long.txt" "$folder/long"
[ ! -e "$folder/long.svg" ] || fail "draw.sh left a picture"
# A record is a record, and leafnet takes any: so pack warns.
"$bin/board" pack <"$folder/long.txt" 2>"$folder/said" >"$folder/long.record"
grep -qF "warning: $told" "$folder/said" || fail "board pack said: $(cat "$folder/said")"

say "copper that is drawn twice is told by every tool that makes a net or a picture"
told="line 11: overlaps the polygon of line 6 from (12, 4) on"
text=../boards/overlap.txt
for command in net vtk msh csv; do
    tell "$bin/board" "$command"
done
tell "$bin/draw" --board "$text"
tell rust/draw.sh "$text" "$folder/twice"
[ ! -e "$folder/twice.svg" ] || fail "draw.sh left a picture"

echo "test.sh: all as expected"
