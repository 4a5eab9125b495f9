#!/bin/sh
# Sets up what the comparison needs. Read by compare.sh; it can be run by itself, too.
#
# The port's library is always x86-64. On an x86-64 machine nothing is needed. On an Arm machine
# with Debian the driver is built for x86-64 and emulated, library and original alike.
case ${0##*/} in
setup.sh)
    . "$(dirname "$0")/../bindings/usage.sh"
    take_no_words "$@"
    ;;
esac

if [ "$(uname -m)" != x86_64 ]; then
    missing=""
    for package in gcc gcc-x86-64-linux-gnu libc6-dev-amd64-cross rustc-web qemu-user \
        libstd-rust-web-dev:amd64 libc6:amd64; do
        dpkg -s "$package" >/dev/null 2>&1 || missing="$missing $package"
    done
    if [ -n "$missing" ]; then
        dpkg --add-architecture amd64
        apt-get update
        # shellcheck disable=SC2086
        apt-get install --yes --no-install-recommends $missing
    fi

    RUSTC=$(dpkg -L rustc-web | grep '/bin/rustc[^/]*$' | head -n 1)
    # With the cross libraries as a prefix the emulator aborts; the loader of libc6:amd64 works.
    loader=$(dpkg -L libc6:amd64 | grep '/ld-linux-x86-64\.so\.2$' | head -n 1)
    CARGO_BUILD_TARGET=x86_64-unknown-linux-gnu
    CARGO_TARGET_X86_64_UNKNOWN_LINUX_GNU_LINKER=x86_64-linux-gnu-gcc
    LEAFMESH_RUNNER="qemu-x86_64 $loader"
    CARGO_TARGET_X86_64_UNKNOWN_LINUX_GNU_RUNNER=$LEAFMESH_RUNNER
    export RUSTC CARGO_BUILD_TARGET LEAFMESH_RUNNER
    export CARGO_TARGET_X86_64_UNKNOWN_LINUX_GNU_LINKER
    export CARGO_TARGET_X86_64_UNKNOWN_LINUX_GNU_RUNNER
fi
