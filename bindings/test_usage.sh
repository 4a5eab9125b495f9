#!/bin/sh
# test_usage.sh: every script answers --help on standard output, and words that make no sense by its usage on standard
# error and status 2, before it does anything else. All are clean by shellcheck, where that is.
set -eu
# shellcheck source=usage.sh
. "$(dirname "$0")/usage.sh"
take_no_words "$@"
root=$(cd "$(dirname "$0")/.." && pwd)
folder=$(mktemp -d)
trap 'rm -rf "$folder"' EXIT
# Whatever a script does with its words, nothing is proved or built.
mkdir "$folder/empty" "$folder/bin"
for tool in rt cargo cc mpicc; do
    printf '#!/bin/sh\necho "%s is called" >&2\nexit 1\n' $tool >"$folder/bin/$tool"
    chmod +x "$folder/bin/$tool"
done
PATH=$folder/bin:$PATH
cd "$folder/empty"

fail() {
    echo "test_usage.sh: $*" >&2
    exit 1
}
ends_with() { # STATUS SCRIPT WORD..
    wanted=$1
    shift
    status=0
    "$@" >"$folder/printed" 2>"$folder/said" || status=$?
    [ "$status" = "$wanted" ] || fail "$*: status $status, not $wanted: $(cat "$folder/said")"
    [ -z "$(ls -A)" ] || fail "$*: left $(ls -A)"
}
helps() { # SCRIPT WORD..
    ends_with 0 "$@" --help
    [ -s "$folder/printed" ] || fail "$*: says nothing"
    [ ! -s "$folder/said" ] || fail "$1 --help: said $(cat "$folder/said")"
}
# The comment at its top, and no other.
shows_its_top() { # SCRIPT
    helps "$1"
    awk 'NR > 1 && !/^#/ { exit } NR > 1' "$1" | sed 's/^# //; s/^#$//' | diff - "$folder/printed" >&2 ||
        fail "$1 --help: prints another text than its comment"
}
refuses() { # SCRIPT WORD..
    ends_with 2 "$@"
    [ ! -s "$folder/printed" ] || fail "$*: printed $(cat "$folder/printed")"
    head -n 1 "$folder/said" | grep -q "^usage: ${script##*/}" || fail "$*: said $(cat "$folder/said")"
}

count=0
for script in $(cd "$root" && find install.sh bindings oracle -name '*.sh' -not -path '*/target/*'); do
    case $script in
    # Read by others and not run.
    bindings/usage.sh | bindings/places.sh | bindings/linking/version.sh | bindings/python/which.sh) continue ;;
    esac
    shows_its_top "$root/$script"
    refuses "$root/$script" --no-such-word
    refuses "$root/$script" --help --no-such-word
    refuses "$root/$script" one two three four five
    count=$((count + 1))
done
[ "$count" -ge 20 ] || fail "looked at $count scripts"

script=install.sh
refuses "$root/install.sh"
refuses "$root/install.sh" -prefix
refuses "$root/install.sh" ""
refuses "$root/install.sh" --version more
ends_with 0 "$root/install.sh" --version
grep -qx '[0-9]*\.[0-9]*\.[0-9]*' "$folder/printed" || fail "install.sh --version: $(cat "$folder/printed")"
script=library.sh
refuses "$root/bindings/library.sh" table
refuses "$root/bindings/library.sh" leafnet leafnet
refuses "$root/bindings/library.sh" ""
script=draw.sh
refuses "$root/bindings/rust/draw.sh"
refuses "$root/bindings/rust/draw.sh" board.txt -out
script=compare.sh
refuses "$root/oracle/compare.sh" tables
refuses "$root/oracle/compare.sh" table many
refuses "$root/oracle/compare.sh" bench table 1
script=replays.sh
refuses "$root/oracle/replays.sh" 1x
script=beside.sh
refuses "$root/oracle/beside.sh" --without-leaves

if command -v python3 >/dev/null; then
    for script in docs/design_changes.py docs/design_pages.py docs/design_pass.py bindings/files.py oracle/edits.py \
        oracle/faults.py; do
        helps python3 "$root/$script"
        refuses python3 "$root/$script" --no-such-word
    done
    refuses python3 "$root/oracle/faults.py" no-fault-has-this-word
    script=oracle/edits.py
    refuses python3 "$root/oracle/edits.py" no_crate/no_edit
else
    echo "usage of docs/*.py, oracle/*.py and bindings/*.py left out: that needs python3"
fi

if command -v shellcheck >/dev/null; then
    (cd "$root" && find install.sh bindings oracle -name '*.sh' -not -path '*/target/*' -exec shellcheck {} +) >&2 ||
        fail "shellcheck has complaints"
else
    echo "shellcheck of all scripts left out: that needs shellcheck"
fi
echo "usage: as expected"
