#!/bin/sh
# The original and ours on the same inputs in one run, as ratios: every part, or those named (docs/BENCHMARKS.md).
# Skipped where the original or cargo is missing.
cd "$(dirname "$0")" || exit 2
../oracle/needs.sh bench original cargo || exit
CARGO_TARGET_DIR=$(cd .. && pwd)/target/bench
export CARGO_TARGET_DIR
cargo build --quiet --offline --release || exit 1
exec "$CARGO_TARGET_DIR/release/bench" "$@"
