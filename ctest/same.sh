#!/bin/sh
# Whether two builds give the same archive: the sources are copied to a new folder of another path, the archive is made there from
# nothing, and both are compared byte for byte. It proves every crate below the archive again, which takes minutes.
cd "$(dirname "$0")/.." || exit 2
ready=$(ctest/library.sh) || exit 1
work=$(mktemp -d) || exit 2
trap 'rm -rf "$work"' EXIT
again="$work/built/in/another/folder"
mkdir -p "$again"
cp -r archive.sh crates.txt crates "$again" && rm -rf "$again"/crates/*/out || exit 2
(cd "$again" && ./archive.sh) > "$work/log" 2>&1 || { cat "$work/log"; exit 1; }
sha256sum "$ready" "$again/target/staticlib/libcorbastrigo.a"
cmp "$ready" "$again/target/staticlib/libcorbastrigo.a" || exit 1
echo "same: two builds in two folders gave the same archive"
