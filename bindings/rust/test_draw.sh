#!/bin/sh
# test_draw.sh: where draw.sh looks for what it is told, where its pictures go, and that it leaves nothing else. It is
# tried with stand-ins for cargo and the tool draw, which note what they are given and build nothing.
set -eu
# shellcheck source=../usage.sh
. "$(dirname "$0")/../usage.sh"
take_no_words "$@"
cd "$(dirname "$0")/../.."
# What the caller's variables name is not what is tried.
unset LEAFMESH_LIBRARY LEAFMESH_PROGRAM CARGO_TARGET_DIR
folder=$(mktemp -d)
# What nobody may write is root's to write, so all is tried as nobody.
chmod 755 "$folder"
as=
if [ "$(id -u)" = 0 ]; then
    command -v setpriv >/dev/null || {
        echo "draw.sh left out: that needs setpriv, or another user than root"
        exit 0
    }
    as="setpriv --reuid=65534 --regid=65534 --clear-groups"
fi
copy=$folder/copy
mkdir -p "$copy/bindings/rust" "$folder/bin" "$folder/library" "$folder/home/boards" "$folder/home/pictures"
trap 'chmod -R u+w "$folder" && rm -rf "$folder"' EXIT
cp bindings/usage.sh bindings/places.sh "$copy/bindings/"
cp bindings/rust/draw.sh "$copy/bindings/rust/"
cat >"$copy/bindings/library.sh" <<'LIBRARY'
#!/bin/sh
echo made >>"$MADE"
LIBRARY
cp boards/deep.txt boards/across.txt "$folder/home/boards/"
touch "$folder/library/libleafmesh.a"

cat >"$folder/bin/cargo" <<'CARGO'
#!/bin/sh
target=${CARGO_TARGET_DIR:-target}
while [ $# -gt 0 ]; do
    [ "$1" != --target-dir ] || target=$2
    shift
done
echo "built in $target with ${LEAFMESH_LIBRARY:-none}" >>"$MADE"
mkdir -p "$target/release"
[ -z "${DRAW_IS_KILLED:-}" ] || kill -TERM "$PPID"
cat >"$target/release/draw" <<'DRAW'
#!/bin/sh
[ "$1" = --board ] && cat "$2" >/dev/null || exit 1
[ -z "${DRAW_FAILS:-}" ] || [ "$5" != "$DRAW_FAILS" ] || exit 1
echo "$*"
DRAW
chmod +x "$target/release/draw"
CARGO
chmod +x "$folder/bin/cargo" "$copy/bindings/library.sh"
MADE=$folder/made
export MADE
: >"$MADE"

fail() {
    echo "test_draw.sh: $*" >&2
    exit 1
}
# Runs draw.sh in a folder of the caller's, with these settings.
run() { # FOLDER SETTINGS WORD..
    from=$1
    settings=$2
    shift 2
    : >"$MADE"
    # shellcheck disable=SC2086
    (cd "$from" && $as env PATH="$folder/bin:$PATH" $settings "$copy/bindings/rust/draw.sh" "$@") \
        >"$folder/printed" 2>"$folder/said"
}
draws() { # FOLDER SETTINGS WORD..
    run "$@" || fail "$*: ended with $?: $(cat "$folder/said")"
}
refuses() { # SAID FOLDER SETTINGS WORD..
    wanted=$1
    shift
    if run "$@"; then fail "$*: ended well"; fi
    grep -qF "$wanted" "$folder/said" || fail "$*: said $(cat "$folder/said")"
    [ ! -s "$MADE" ] || fail "$*: made things before it said so: $(cat "$MADE")"
}
# What stands in a folder, hidden files too, and nothing else does.
holds() { # FOLDER NAME..
    (cd "$1" && find . -type f | sed 's|^\./||' | LC_ALL=C sort) >"$folder/found"
    shift
    printf '%s\n' "$@" | LC_ALL=C sort | diff - "$folder/found" >&2 || fail "other files than those due"
}
prints() { # NAME..
    [ "$(cat "$folder/printed")" = "$*" ] || fail "printed $(cat "$folder/printed"), not $*"
}
home=$folder/home
clean() {
    rm -rf "$home"/*.svg "$home"/*/*.svg "$home/built" "$copy/bindings/rust/target"
    find "$home" -name '.?*' -exec rm -rf {} +
}
# All is nobody's, but for what is tried as written by others alone.
of_nobody() { [ -z "$as" ] || chown -R 65534:65534 "$@"; }
of_nobody "$folder"

# Beside the board, and with terminals its power.
draws "$home" "" boards/deep.txt
prints boards/deep.svg boards/deep-borders.svg
draws "$home" "" boards/across.txt
prints boards/across.svg boards/across-power.svg boards/across-borders.svg
holds "$home/boards" deep.txt deep.svg deep-borders.svg across.txt across.svg across-power.svg across-borders.svg
grep -qx made "$MADE" || fail "no library was made"
clean

# What is named is seen from the caller's folder.
draws "$home/boards" "LEAFMESH_LIBRARY=../../library CARGO_TARGET_DIR=../built" deep.txt ../pictures/n
grep -qx "built in $home/boards/../built with $home/boards/../../library" "$MADE" || fail "cargo: $(cat "$MADE")"
if grep -qx made "$MADE"; then fail "made a library beside the one that is named"; fi
[ -x "$home/built/release/draw" ] || fail "the tool isn't in CARGO_TARGET_DIR"
[ ! -e "$copy/bindings/rust/target" ] || fail "the tool is in the crate's folder, too"
holds "$home/pictures" n.svg n-borders.svg
clean
draws "$home" "LEAFMESH_LIBRARY= CARGO_TARGET_DIR=" boards/deep.txt "$home/pictures/n"
grep -qx made "$MADE" || fail "a library that is named by nothing is one"
prints "$home/pictures/n.svg" "$home/pictures/n-borders.svg"
clean

# Into a folder, by the board's name; beside a folder of that name where none is asked for.
draws "$home" "" boards/deep.txt pictures/
prints pictures/deep.svg pictures/deep-borders.svg
mkdir "$home/boards/deep"
of_nobody "$home/boards/deep"
draws "$home" "" boards/deep.txt
prints boards/deep.svg boards/deep-borders.svg
rmdir "$home/boards/deep"
clean

# Folders that can't be written: the board's, the caller's, the repository's, all of them.
chmod 555 "$home/boards"
refuses "boards can't be written: name another place" "$home" "" boards/deep.txt
draws "$home" "" boards/deep.txt pictures/n
draws "$home/boards" "" deep.txt "$home/pictures/m"
chmod -R a-w "$copy"
draws "$home/boards" "LEAFMESH_LIBRARY=../../library" deep.txt ../pictures/o
holds "$home/pictures" n.svg n-borders.svg m.svg m-borders.svg o.svg o-borders.svg
chmod -R u+w "$copy" "$home/boards"
clean

# Told before anything is made.
refuses "there is no file boards/no.txt" "$home" "" boards/no.txt
refuses "there is no file boards" "$home" "" boards
refuses "there is no folder nowhere" "$home" "" boards/deep.txt nowhere/deep
chmod 000 "$home/boards/deep.txt"
refuses "boards/deep.txt can't be read" "$home" "" boards/deep.txt
chmod 644 "$home/boards/deep.txt"

# All pictures, or none and nothing else, also where it is stopped.
if run "$home" "DRAW_FAILS=--power" boards/across.txt; then fail "ended well without a picture"; fi
holds "$home/boards" deep.txt across.txt
if run "$home" "DRAW_IS_KILLED=1" boards/across.txt; then fail "ended well when it was stopped"; fi
grep -q '^built' "$MADE" || fail "it was stopped before it built"
holds "$home/boards" deep.txt across.txt
if [ -e .git ] && command -v git >/dev/null; then
    for file in boards/drive.svg boards/drive-power.svg boards/drive-borders.svg boards/.draw.abcdef/.svg; do
        git check-ignore -q "$file" || fail "$file is untracked"
    done
fi
echo "draw.sh: as expected"
