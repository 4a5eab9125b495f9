#!/bin/sh
# test_library.sh: library.sh makes library and program where they aren't there or not of these sources, and only then,
# and install.sh makes both by one call of it. They are tried on a copy of the crates, with a stand-in for rt that notes
# its calls and proves nothing.
set -eu
# shellcheck source=usage.sh
. "$(dirname "$0")/usage.sh"
take_no_words "$@"
cd "$(dirname "$0")/.."
folder=$(mktemp -d)
trap 'rm -rf "$folder"' EXIT
copy=$folder/copy
mkdir -p "$copy" "$folder/bin"
tar --exclude=out -cf - crates crates.txt bindings/library.sh bindings/usage.sh | tar -xf - -C "$copy"

cat >"$folder/bin/rt" <<'RT'
#!/bin/sh
crate=$(basename "$PWD")
echo "$1 $crate" >>"$RT_CALLS"
[ -z "${RT_EDITS:-}" ] || echo "// edited meanwhile" >>"$RT_EDITS"
[ -z "${RT_FAILS:-}" ] || {
    echo "rt: $crate isn't proved"
    exit 1
}
mkdir -p out
case $1 in
lib) echo "made of $(cat src/*.rt | wc -c) bytes" >"out/lib$crate.a" ;;
run) echo "made" >"out/$crate" ;;
esac
RT
chmod +x "$folder/bin/rt"
RT_CALLS=$folder/calls
export RT_CALLS

fail() {
    echo "test_library.sh: $*" >&2
    exit 1
}
# Ends as library.sh does, and leaves what it called and what it said.
run() {
    : >"$folder/calls"
    PATH="$folder/bin:$PATH" "$copy/bindings/library.sh" "$@" >"$folder/printed" 2>"$folder/said"
}
makes() { # WHAT WHY [WORD]
    what=$1 why=$2
    shift 2
    run "$@" || fail "$why: ended with $?: $(cat "$folder/said")"
    [ "$(cat "$folder/calls")" = "$what" ] || fail "$why: rt was called for '$(cat "$folder/calls")', not for '$what'"
}
makes_both() { # WHY
    makes "lib leafmesh" "$1"
    makes "run leafnet" "$1" leafnet
}
makes_none() { # WHY
    makes "" "$1"
    [ ! -s "$folder/said" ] || fail "$1: said $(cat "$folder/said")"
    makes "" "$1" leafnet
}

makes_both "nothing is there"
makes_none "all is there"
rm -r "$copy/crates/leafmesh/out" "$copy/crates/leafnet/out"
makes "lib leafmesh
run leafnet" "both are named, and nothing is there" leafmesh leafnet
makes "" "both are named and there" leafnet leafmesh
rm "$copy/crates/leafmesh/out/libleafmesh.a"
makes "lib leafmesh" "both are named, and one is there" leafmesh leafnet
find "$copy" -type f -exec touch -d '2040-01-01' {} +
makes_none "all files are newer"
find "$copy" -type f -exec touch -d '2020-01-01' {} +
makes_none "all files are of one time"

# What the compiler doesn't take of them.
mkdir -p "$copy/docs" "$copy/crates/refusals/data"
echo "# another edit" >"$copy/crates/refusals/must-fail/another.edit"
for file in crates/table/must-fail/new.edit crates/replay_table/stdin crates/leafnet/stdout crates/refusals/NOTES.md \
    crates/refusals/data/board crates/calls/src/lib.rt crates/replay_net/src/main.rt docs/RULES.md; do
    echo "more" >>"$copy/$file"
done
echo "another: refusals # that nothing stands on" >>"$copy/crates.txt"
makes_none "cases, tests, edits and pages were edited"

# What it takes.
for file in crates/refusals/src/lib.rt crates/refusals/specs/Lib.antt crates/refusals/proofs/Lib.antt; do
    echo "-- more" >>"$copy/$file"
    makes_both "$file was edited"
    makes_none "$file was edited before"
done
echo "// a new one" >"$copy/crates/refusals/src/new.rt"
makes_both "a source came"
mv "$copy/crates/refusals/src/new.rt" "$copy/crates/refusals/src/newer.rt"
makes_both "a source has another name"
rm "$copy/crates/refusals/src/newer.rt"
makes_both "a source went"
sed -i 's/^cell:/cell opt_level=1:/' "$copy/crates.txt"
makes_both "a crate's line was edited"
echo "// more" >>"$copy/crates/leafmesh/src/lib.rt"
makes "" "what leafnet doesn't stand on was edited" leafnet
makes "lib leafmesh" "its own source was edited"
echo "// more" >>"$copy/crates/leafnet_text/src/lib.rt"
makes "" "what the library doesn't stand on was edited"
makes "run leafnet" "a source below it was edited" leafnet

# What was made.
echo "another build" >"$copy/crates/leafmesh/out/libleafmesh.a"
makes "lib leafmesh" "the library is another one"
rm "$copy/crates/leafmesh/out/libleafmesh.a"
makes "lib leafmesh" "the library is gone"
export RT_EDITS="$copy/crates/refusals/src/lib.rt"
rm "$copy/crates/leafmesh/out/libleafmesh.a"
makes "lib leafmesh" "a source is edited while it is proved"
unset RT_EDITS
makes_both "a source was edited while it was proved"
makes_none "nothing happened since"

echo "// more" >>"$copy/crates/refusals/src/lib.rt"
export RT_FAILS=1
if run; then fail "ended well, and rt didn't"; fi
grep -q "isn't proved" "$folder/said" || fail "rt's words aren't told: $(cat "$folder/said")"
if run leafmesh leafnet; then fail "ended well with both, and rt didn't"; fi
[ "$(cat "$folder/calls")" = "lib leafmesh" ] || fail "went on behind a failure: $(cat "$folder/calls")"
unset RT_FAILS
makes_both "rt failed before"

# A folder that can't be written, as nobody where this is run as root.
as=
[ "$(id -u)" != 0 ] || as="setpriv --reuid=65534 --regid=65534 --clear-groups"
if [ -z "$as" ] || command -v setpriv >/dev/null; then
    rm "$copy/crates/leafmesh/out/libleafmesh.a"
    chmod 755 "$folder"
    chmod a-w "$copy/crates/leafmesh"
    # shellcheck disable=SC2086
    if PATH="$folder/bin:$PATH" $as "$copy/bindings/library.sh" 2>"$folder/said"; then fail "ended well"; fi
    grep -q "crates/leafmesh can't be written; LEAFMESH_LIBRARY names" "$folder/said" ||
        fail "a folder that can't be written isn't told: $(cat "$folder/said")"
    chmod u+w "$copy/crates/leafmesh"
    makes "lib leafmesh" "it couldn't be made before"
else
    echo "library.sh in a folder that can't be written left out: that needs setpriv, or another user than root"
fi

# Without rt.
tools=$folder/tools
mkdir "$tools"
for tool in sh awk cat chmod dirname find mktemp rm sed sha256sum sort tail; do
    ln -s "$(command -v "$tool")" "$tools/$tool"
done
PATH=$tools "$copy/bindings/library.sh" 2>"$folder/said" || fail "nothing to do, and no rt: $(cat "$folder/said")"
echo "// more" >>"$copy/crates/refusals/src/lib.rt"
if PATH=$tools "$copy/bindings/library.sh" 2>"$folder/said"; then fail "ended well without rt"; fi
grep -q "there is no rt" "$folder/said" || fail "no rt isn't told: $(cat "$folder/said")"

# install.sh, where there is no compiler.
cp -r install.sh include "$copy/"
cp -r bindings/places.sh bindings/linking "$copy/bindings/"
for tool in basename cp install ln mkdir wc; do
    ln -s "$(command -v "$tool")" "$tools/$tool"
done
installs() { # WHAT WHY PATH [SETTING..]
    what=$1 why=$2 path=$3
    shift 3
    rm -rf "$folder/prefix"
    : >"$folder/calls"
    env -u LEAFMESH_LIBRARY -u LEAFMESH_PROGRAM "PATH=$path" "$@" "$copy/install.sh" "$folder/prefix" \
        >"$folder/printed" 2>"$folder/said" || fail "install.sh, $why: ended with $?: $(cat "$folder/said")"
    [ "$(cat "$folder/calls")" = "$what" ] || fail "install.sh, $why: rt was called for '$(cat "$folder/calls")'"
    [ -f "$folder/prefix/lib/libleafmesh.a" ] || fail "install.sh, $why: no library"
}
has_leafnet() { [ -f "$folder/prefix/bin/leafnet" ] || fail "install.sh, $why: no leafnet"; }
has_no_leafnet() { # SAID
    [ ! -e "$folder/prefix/bin/leafnet" ] || fail "install.sh, $why: a leafnet"
    grep -q "no leafnet: $1" "$folder/said" || fail "install.sh, $why: said $(cat "$folder/said")"
}
installs "lib leafmesh
run leafnet" "both are of other sources" "$tools:$folder/bin"
has_leafnet
installs "" "both are there, and no rt" "$tools"
has_leafnet
rm "$copy/crates/leafnet/out/leafnet"
installs "" "leafnet isn't there, and no rt" "$tools"
has_no_leafnet "it is to be made, and there is no rt"
installs "" "leafnet isn't there, and a library is named" "$tools:$folder/bin" LEAFMESH_LIBRARY="$copy/crates/leafmesh/out"
has_no_leafnet "LEAFMESH_PROGRAM names none"
echo "// more" >>"$copy/crates/refusals/src/lib.rt"
installs "lib leafmesh" "leafnet is named" "$tools:$folder/bin" LEAFMESH_PROGRAM="$tools/cat"
has_leafnet
installs "run leafnet" "the library is there" "$tools:$folder/bin"
has_leafnet
echo "library.sh: as expected"
