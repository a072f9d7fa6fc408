#!/bin/sh
# Compiles the original, unchanged, asks it for the answers to all cases of src/bin/replay_vectors, and compares them with those that are
# stored: the list that the Rattle program of that name reads (crates/replay_vectors/stdin), what it must print (stdout), and the tables
# of docs/tables. With --write they are written anew. Before that the answers to two maps compared, draws and loads, groups by document 02's
# numbering, and maps built from prefixes are held to other ways of making them (tests/changes.rs, tests/loads.rs, tests/groups.rs,
# tests/building.rs), since the original has none of them.
# Skipped where the original or cargo is missing: the answers are stored.
cd "$(dirname "$0")" || exit 2
./needs.sh oracle original cargo || exit
CARGO_TARGET_DIR=$(cd .. && pwd)/target/oracle
export CARGO_TARGET_DIR
cargo build --quiet --offline || exit 1
program=$CARGO_TARGET_DIR/debug/replay_vectors
made=$CARGO_TARGET_DIR/made
failed=0

# compare FILE WORD...: what the program prints, handed the words, against the stored file.
write=${1:-}
compare() {
    stored=$1
    shift
    if ! "$program" "$@" > "$made"; then
        echo "oracle: $stored could not be made"
        failed=1
    elif [ "$write" = --write ]; then
        cp "$made" "../$stored"
        echo "oracle: $stored written ($(wc -l < "$made") lines)"
    elif cmp -s "$made" "../$stored"; then
        echo "oracle: $stored agrees ($(wc -l < "$made") lines)"
    else
        echo "oracle: $stored differs:"
        diff "../$stored" "$made" | head -n 20
        failed=1
    fi
}

# held TESTS WHAT: a file of tests, by name, and what it is about.
held() {
    if cargo test --quiet --offline --test "$1" > "$made" 2>&1; then
        echo "oracle: $(sed -n 's/^test result: ok\. \([0-9]*\) passed.*/\1/p' "$made") tests of $2 pass"
    else
        cat "$made"
        failed=1
    fi
}

held changes "compared maps"
held loads "draws and loads"
held groups "groups without a map"
held building "maps built from prefixes"
compare crates/replay_vectors/stdin --list
compare crates/replay_vectors/stdout
for table in $("$program" --tables); do
    compare "docs/tables/$table.txt" --table "$table"
done
# The map of the story that run.sh plays. It is ours alone, and made by the same code as the maps of the comparison.
program=$CARGO_TARGET_DIR/debug/story
compare docs/story/node.asmap
exit "$failed"
