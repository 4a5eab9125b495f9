#!/bin/sh
# Writes stdin and stdout of every replay program: cases, and what the original answers to them.
#
#   replays.sh [COUNT [SEED]]    COUNT: cases of each call and outcome
#
# Needs no library of the port. The files in crates/replay_*/ were written by replays.sh without
# words.
set -eu
# shellcheck source=../bindings/usage.sh
. "$(dirname "$0")/../bindings/usage.sh"
take_count_and_seed "$@"
cd "$(dirname "$0")"
exec cargo run --offline --release --quiet -p replays -- ../crates "$@"
