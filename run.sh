#!/bin/sh
# The main job: builds the library and the command `asmap`, then plays the story that they are for, on a screen: a node's map, the same
# map after an undo that lost its last page, what a thousand sampled addresses say of it, and what the check says.
# The first time every crate of the library is proved, which takes minutes; after that it takes seconds.
cd "$(dirname "$0")" || exit 2
. ./build.sh || exit 1
build_library && build_command || exit 1

story=target/story
asmap=target/rust/release/asmap
mkdir -p "$story"
cp docs/story/node.asmap "$story/node.asmap"
size=$(($(wc -c < "$story/node.asmap")))
kept=$((size / 4096 * 4096))
head -c "$kept" "$story/node.asmap" > "$story/undone.asmap"

# A thousand IPv4 addresses, evenly over all there are.
awk 'BEGIN { for (i = 0; i < 1000; i++) { a = i * 4294967 + 2147483
    printf "%d.%d.%d.%d\n", a / 16777216, a / 65536 % 256, a / 256 % 256, a % 256 } }' > "$story/sampled.txt"

# numbers MAP OPTION...: the number of each sampled address, one a line.
numbers() {
    "$asmap" --json walk "$@" - < "$story/sampled.txt" | sed 's/.*"number":\([0-9]*\).*/\1/'
}
numbers "$story/node.asmap" > "$story/before.txt"
numbers --unchecked "$story/undone.asmap" > "$story/after.txt"
same=$(paste "$story/before.txt" "$story/after.txt" | awk '$1 == $2 { same++ } END { print same + 0 }')

# shown COMMAND...: the command as a person types it, and what it prints.
shown() {
    echo "\$ $*"
    (cd "$story" && PATH=../rust/release:$PATH && "$@")
    echo
}
echo
echo "A node's map, node.asmap, has $size bytes. An undo brings it back short of its last page: undone.asmap has $kept."
echo "A preview walks a thousand sampled IPv4 addresses by both. Numbers that are as they were before: $same of 1000."
echo "Nothing seems wrong. But the check reads the whole map:"
echo
shown asmap check node.asmap undone.asmap
echo "These are peers that nobody sampled. By the old map each has its operator; by the other all are 0, one group, since every walk was aborted:"
echo
shown asmap walk node.asmap 2600::1 2a00::1 2c00::1
shown asmap walk --unchecked undone.asmap 2600::1 2a00::1 2c00::1
echo "docs/LEARN.md explains what happened here. ./test.sh runs every test."
