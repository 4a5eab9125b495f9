#!/bin/sh
# test.sh: the tests of the Python package. Where there is no python3 with numpy, or no C compiler to make the shared
# library, a line says so, and that is all. PYTHON and CC name other ones.
set -eu
# shellcheck source=../usage.sh
. "$(dirname "$0")/../usage.sh"
take_no_words "$@"
# shellcheck source=which.sh
. "$(dirname "$0")/which.sh"
# shellcheck source=../linking/version.sh
. "$(dirname "$0")/../linking/version.sh"
# shellcheck source=../places.sh
. "$(dirname "$0")/../places.sh"
see_places_from_here
cd "$(dirname "$0")"
root=$(cd ../.. && pwd)
python=$(python_with_numpy)
[ -n "$python" ] || {
    echo "python left out: that needs python3 with numpy"
    exit 0
}
compiler_is_there || {
    echo "python left out: the shared library needs a C compiler for x86-64, cc or the one that CC names"
    exit 0
}
make_what_is_not_named "$root"
folder=$(mktemp -d)
trap 'rm -rf "$folder"' EXIT
if builder_is_there; then
    LEAFMESH_BOARD=$(build_tools "$root/bindings/rust" "$folder/target" board)/board
    export LEAFMESH_BOARD
else
    echo "python: boards past leafnet's 64 slots left out: that needs cargo and cc"
fi
../linking/shared.sh "${LEAFMESH_LIBRARY:-$root/crates/leafmesh/out}/libleafmesh.a" "$folder"
LEAFMESH_PROGRAM=${LEAFMESH_PROGRAM:-$root/crates/leafnet/out/leafnet}
export LEAFMESH_PROGRAM
LEAFMESH_LIBRARY=$folder "$python" -B -W error -m unittest discover -q -s tests -t . 2>"$folder/said" || {
    cat "$folder/said" >&2
    exit 1
}
sed -n 's/^Ran \(.*\) in .*/python: \1, as expected/p' "$folder/said"
