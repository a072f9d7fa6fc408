#!/bin/sh
# The library, through its archive, against the original on many inputs: about a minute, or with --long some minutes and every string
# of three bytes. Prints its seed; --seed N runs with that one.
# Skipped where the original or cargo is missing.
cd "$(dirname "$0")/scale" || exit 2
../needs.sh scale original cargo || exit
CARGO_TARGET_DIR=$(cd ../.. && pwd)/target/scale
export CARGO_TARGET_DIR
cargo build --quiet --offline --release || exit 1
exec "$CARGO_TARGET_DIR/release/scale" "$@"
