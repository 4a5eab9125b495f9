#!/bin/sh
# shared.sh ARCHIVE FOLDER: makes the shared library of the static one, with its links, in a folder that is there.
#
# It exports the calls of include/leafmesh.h and nothing else. Its name for the loader has as much of the version as a
# program depends on (libleafmesh.so.0.11, say). It is made by cc, or the compiler that CC names, for x86-64.
set -eu
# shellcheck source=../usage.sh
. "$(dirname "$0")/../usage.sh"
take_names 2 2 "ARCHIVE FOLDER" "$@"
archive=$1
folder=$2
# shellcheck source=version.sh
. "$(dirname "$0")/version.sh"
version=$(version_of "$(dirname "$0")/../../include/leafmesh.h")
soname=libleafmesh.so.$(series_of "$version")
exports=$(mktemp)
trap 'rm -f "$exports"' EXIT
echo '{ global: leafmesh_*; local: *; };' >"$exports"
# It needs no start of its own: nothing is set up, and nothing is kept.
${CC:-cc} -shared -nostartfiles -o "$folder/libleafmesh.so.$version" \
    -Wl,--whole-archive "$archive" -Wl,--no-whole-archive -Wl,-soname,"$soname" \
    -Wl,--version-script -Xlinker "$exports" -Wl,-z,defs -Wl,-z,now -Wl,-z,noexecstack -Wl,--as-needed
ln -sf "libleafmesh.so.$version" "$folder/$soname"
ln -sf "$soname" "$folder/libleafmesh.so"
