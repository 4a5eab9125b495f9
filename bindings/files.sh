#!/bin/sh
# files.sh: files of a mesh (`board vtk`, `board msh`, `board csv`) are opened by the programs that they are for, which
# must find as many leaves and links as `board net` has, and as many watts as `board solve`. Says which of these
# programs aren't installed. PYTHON names another Python than python3.
set -eu
# shellcheck source=usage.sh
. "$(dirname "$0")/usage.sh"
take_no_words "$@"
# shellcheck source=places.sh
. "$(dirname "$0")/places.sh"
see_places_from_here
cd "$(dirname "$0")"
[ -n "${LEAFMESH_LIBRARY:-}" ] || ./library.sh
folder=$(mktemp -d)
trap 'rm -rf "$folder"' EXIT
board=$(build_tools "$PWD/rust" "$folder/target" board)/board

fail() {
    echo "files.sh: $*" >&2
    exit 1
}

# The first Python with a reader, if there is one.
python_with() { # READER
    for name in ${PYTHON:-python3 /usr/bin/python3}; do
        if "$name" files.py "$1" 2>/dev/null; then
            command -v "$name"
            return
        fi
    done
}

# Leaves, links and watts as a reader finds them must be those of the board.
same() { # READER FOUND WANTED
    echo "$2 $3" | awk '{ exit !($1 == $4 && $2 == $5 && ($3 - $6) ^ 2 <= 1e-10 * $6 ^ 2 && $6 > 0) }' ||
        fail "$1 finds '$2', not '$3', of $name"
    echo "$name: $1 finds $2"
}

# What Gmsh reads of a file: its leaves and links, and in watts the integral of the power density over the leaves.
by_gmsh() { # FILE
    cat >"$folder/integral.geo" <<GEO
Merge "$1";
For at In {0 : PostProcessing.NbViews - 1}
    If (StrCmp(View[at].Name, "W_per_mm2") == 0)
        Plugin(Integrate).View = at;
        Plugin(Integrate).Dimension = 2;
        Plugin(Integrate).Run;
    EndIf
EndFor
Printf("leaves %g", Mesh.NbQuadrangles);
GEO
    gmsh "$folder/integral.geo" -parse_and_exit >"$folder/gmsh" 2>&1 || fail "gmsh: $(cat "$folder/gmsh")"
    ! grep '^Error\|^Warning' "$folder/gmsh" >&2 || fail "gmsh finds fault with $1"
    awk '
        / elements$/ { all = $3 }
        / integral = / { watts = $NF * 1e6 }
        $1 == "leaves" { leaves = $2 }
        END { printf "%d %d %.9g\n", leaves, all - leaves, watts }
    ' "$folder/gmsh"
}

for name in across drive; do
    file=../boards/$name.txt
    "$board" vtk --power "$file" -o "$folder/vtk.vtk"
    "$board" msh --power "$file" -o "$folder/msh.msh"
    "$board" csv --power "$file" -o "$folder/csv.csv"
    leaves=$("$board" net "$file" | sed -n '1s/.* leaves \([0-9]*\) .*/\1/p')
    links=$("$board" net "$file" | sed -n '1s/.* links \([0-9]*\)$/\1/p')
    "$board" solve "$file" >"$folder/solved"
    watts=$(awk '$1 == "power" { print $2 }' "$folder/solved")
    of_leaves=$(awk '$1 == "power" { print $2 - $4 }' "$folder/solved")
    for kind in vtk:vtk meshio:vtk meshio:msh csv:csv; do
        reader=${kind%:*} file=$folder/${kind#*:}.${kind#*:}
        python=$(python_with "$reader")
        case $kind in
        csv:*) wanted="$leaves 0 $of_leaves" ;;
        *) wanted="$leaves ${links:-0} $watts" ;;
        esac
        if [ -n "$python" ]; then
            same "$reader (${file##*.})" "$("$python" files.py "$reader" "$file")" "$wanted"
        else
            echo "$name: left out: no Python that has $reader"
        fi
    done
    if command -v gmsh >/dev/null; then
        same "gmsh" "$(by_gmsh "$folder/msh.msh")" "$leaves ${links:-0} $of_leaves"
    else
        echo "$name: left out: gmsh isn't installed"
    fi
done
echo "files: as expected"
