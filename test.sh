#!/bin/sh
# Every test of the repository. First the edge of the library, the pages and the stored answers against the original; then rt's own gate, which
# holds the layout of the files, proves every crate from nothing, tries every must-fail edit and runs every program; then the library and the command: calls from C and from Rust, the installation, every command on the pages, the comparison with the
# original, and the main job.
# Where all passed the last line is rt's count, said again; the exit status is not 0 where any step failed, and the last line names the
# step. Where this machine lacks what a step needs (oracle/needs.sh), the line before the last names the steps that were skipped; with CI
# set in the environment each of them has failed.
cd "$(dirname "$0")" || exit 2
failed=""
skipped=""

# step NAME COMMAND...: runs the command, and keeps the step's name where it failed or was skipped.
step() {
    name=$1
    shift
    "$@"
    case $? in
        0) ;;
        77)
            skipped="$skipped, $name"
            [ -z "${CI:-}" ] || failed="$failed, $name (skipped)"
            ;;
        *) failed="$failed, $name" ;;
    esac
}

step "edge of the library" ctest/edge.sh
step "pages" docs/pages.sh
step "stored answers" oracle/compare.sh
log=$(mktemp) || exit 2
{ rt ci || echo "rt ci failed"; } 2>&1 | tee "$log"
count=$(tail -n 1 "$log")
case $count in
    *" passed, 0 failed") ;;
    *) failed="$failed, rt ci" ;;
esac
# An edit whose text no longer stands fails nothing in rt's gate, and shows nothing: here it fails.
if grep '^rt: ok' "$log" | grep -q ', [0-9]* bad'; then failed="$failed, bad must-fail edits"; fi
rm -f "$log"
# The archive is made here once, of what was just proved, and every step below is told where it is: two runs of rt at once would be in
# each other's way.
unset CORBASTRIGO_LIB_DIR
. ./build.sh
step "archive" build_library
step "calls from C" ctest/run.sh
step "installed files" ctest/install.sh
# The tests of the Rust crates run beside the comparison; what they print is shown after it.
rust/test.sh > target/rust.log 2>&1 &
tests=$!
rust_crates() {
    wait "$tests"
    status=$?
    cat target/rust.log
    return "$status"
}
# The main job, held to its stored screen.
main_job() {
    oracle/needs.sh story cargo || return
    ./run.sh > target/screen.txt && diff docs/story/screen.txt target/screen.txt && echo "story: the screen is as stored"
}
step "comparison at scale" oracle/scale.sh
step "Rust crates" rust_crates
step "main job" main_job
step "installed command" ctest/command.sh
[ -z "$skipped" ] || echo "test: skipped: ${skipped#, }"
if [ -n "$failed" ]; then
    echo "test: failed: ${failed#, }"
    exit 1
fi
echo "$count"
