# shellcheck shell=sh
# Read by other scripts.

# The version that a header is of.
version_of() { sed -n 's/^#define LEAFMESH_VERSION "\(.*\)"$/\1/p' "$1"; }

# What of a version a caller's program depends on: before 1.0 another minor version may ask for changes in its source,
# later another major one.
series_of() {
    case $1 in
    0.*) echo "${1%.*}" ;;
    *) echo "${1%%.*}" ;;
    esac
}

# Whether cc, or what CC names, makes code for x86-64, as a shared library needs.
compiler_is_there() {
    case $(${CC:-cc} -dumpmachine 2>/dev/null) in
    x86_64-*) return 0 ;;
    *) return 1 ;;
    esac
}
