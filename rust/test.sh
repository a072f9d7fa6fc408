#!/bin/sh
# The tests of the workspace: layout, every test and example with the crate's features and without, its pages, and lints. The archive is that
# of CORBASTRIGO_LIB_DIR, or the build has rt make it. Skipped where cargo is missing; layout and lints where cargo has no such part.
cd "$(dirname "$0")" || exit 2
../oracle/needs.sh rust cargo || exit
if cargo fmt --version > /dev/null 2>&1; then
    cargo fmt --check || exit 1
fi
./cargo.sh test --quiet || exit 1
./cargo.sh test --quiet -p corbastrigo --no-default-features --test calls || exit 1
RUSTDOCFLAGS="-D warnings" ./cargo.sh doc --quiet --no-deps -p corbastrigo -p corbastrigo-sys || exit 1
cargo clippy --version > /dev/null 2>&1 || exit 0
# For clippy cargo runs the build script once more, as another one. The archive is there by now, so rt need not.
CORBASTRIGO_LIB_DIR=${CORBASTRIGO_LIB_DIR:-$(cd .. && pwd)/target/staticlib}
export CORBASTRIGO_LIB_DIR
./cargo.sh clippy --quiet --all-targets -- -D warnings
