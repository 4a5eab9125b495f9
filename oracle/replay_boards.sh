#!/bin/sh
# Writes crates/replay_boards/stdin, records for `leafnet`, and crates/replay_boards/stdout, what the
# original has the program write for them. The port is neither linked nor run.
#
#   replay_boards.sh [COUNT [SEED]]
set -eu
# shellcheck source=../bindings/usage.sh
. "$(dirname "$0")/../bindings/usage.sh"
take_count_and_seed "$@"
cd "$(dirname "$0")"
exec cargo run --offline --release --quiet -p inputs --bin replay_boards -- ../crates/replay_boards "$@"
