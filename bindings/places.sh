# shellcheck shell=sh
# Read by scripts before they go elsewhere: where what they take and make stands.

# What these variables name is seen from the caller's folder. One that is empty names nothing.
see_places_from_here() {
    for variable in LEAFMESH_LIBRARY LEAFMESH_PROGRAM LEAFMESH_ORIGINAL CARGO_TARGET_DIR; do
        place=
        eval "place=\${$variable:-}"
        case $place in
        '') unset "$variable" ;;
        /*) ;;
        *) export "$variable=$(pwd)/$place" ;;
        esac
    done
}

# Makes library and leafnet, or the one of them that no variable names.
make_what_is_not_named() { # ROOT
    library_script=$1/bindings/library.sh
    set --
    [ -n "${LEAFMESH_LIBRARY:-}" ] || set -- leafmesh
    [ -n "${LEAFMESH_PROGRAM:-}" ] || set -- "$@" leafnet
    [ $# = 0 ] || "$library_script" "$@"
}

# Whether the Rust tools can be built.
builder_is_there() { command -v cargo >/dev/null && command -v cc >/dev/null; }

# The names of a crate's tools.
tools_in() { # CRATE
    for source in "$1"/src/bin/*; do
        source=${source##*/}
        echo "${source%.rs}"
    done
}

# Builds these tools of the crate, and says in which folder they are: in CARGO_TARGET_DIR, or else in the crate's
# target, or where that can't be written in SPARE.
build_tools() { # CRATE SPARE TOOL..
    crate=$1
    target=${CARGO_TARGET_DIR:-$1/target}
    [ -n "${CARGO_TARGET_DIR:-}" ] || can_be_filled "$target" || target=$2
    shift 2
    bins=
    for tool in "$@"; do
        bins="$bins --bin $tool"
    done
    # shellcheck disable=SC2086
    (cd "$crate" && cargo build --offline --release --quiet $bins --target-dir "$target" >&2) || return
    echo "$target/release"
}

# Whether cargo can build in a folder, which need not be there.
can_be_filled() { # FOLDER
    mkdir -p "$1" 2>/dev/null && [ -w "$1" ] && { [ ! -e "$1/release" ] || [ -w "$1/release" ]; }
}
