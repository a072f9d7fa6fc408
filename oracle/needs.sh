#!/bin/sh
# needs.sh STEP NEED...: whether there is what a step needs beyond rt and a C compiler: `cargo`, or the `original`, whose folder stands
# beside the repository. Where one is missing it says so and answers 77, the usual number of a test that was skipped; the step ends with
# that number, so that it is not taken for one that passed.
cd "$(dirname "$0")" || exit 2
step=$1
shift
missing() {
    echo "$step: skipped, since $1"
    exit 77
}
for need in "$@"; do
    case $need in
        cargo) command -v cargo > /dev/null || missing "there is no cargo on this machine" ;;
        original)
            [ -f ../../shared/docs/src/crates/rbitcoin-net/src/asmap.rs ] ||
                missing "the original's folder shared/docs/src is not beside this repository"
            ;;
        *) echo "needs.sh: no such need: $need" && exit 2 ;;
    esac
done
