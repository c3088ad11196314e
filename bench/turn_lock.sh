#!/usr/bin/env bash
# Prints how long a turn at a TurnCell takes: with one thread, which adds nothing or an entry, and
# with two and four threads that add an entry in each turn.
set -eu
cd "$(dirname "$0")/../crates/bench_turns"
rt run > /dev/null 2>&1
exec out/bench_turns time
