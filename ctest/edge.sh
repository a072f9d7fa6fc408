#!/bin/sh
# The edge of the library, where no prover looks: a caller in C proves nothing, so a `requires` of an exported call would prove, and every
# test that keeps to it would pass. Refused and named are: a `requires` in the exporting crate; an exported call that has no `ensures`,
# that the header does not declare with the same parameters in the same order, or that calls.c does not name; a call of the header that
# is not exported.
cd "$(dirname "$0")/.." || exit 2
crate=crates/corbastrigo_c/src
work=$(mktemp -d) || exit 2
trap 'rm -rf "$work"' EXIT
find "$crate" -name '*.rt' -exec awk -f ctest/exported.awk {} + | sort > "$work/exported"
awk -f ctest/declared.awk include/corbastrigo.h | sort > "$work/declared"
grep '(' "$work/exported" > "$work/calls" || echo "edge: $crate exports nothing" > "$work/found"
{
    sed -n 's|^requires \(.*\)|edge: \1: a `requires`|p' "$work/exported"
    sed -n 's|^no-ensures \(.*\)|edge: \1 has no `ensures`|p' "$work/exported"
    sed -n 's|^unread|edge: an export not written `#[unsafe(no_mangle)] pub extern "C" fn NAME(..) -> TYPE`|p' "$work/exported"
    comm -23 "$work/calls" "$work/declared" | sed 's|^|edge: exported, but not so in the header: |'
    comm -13 "$work/calls" "$work/declared" | sed 's|^|edge: in the header, but not so exported: |'
    sed 's|.* \(corbastrigo_[a-z0-9_]*\)(.*|\1|' "$work/calls" | while read -r name; do
        grep -qw "$name" ctest/calls.c || echo "edge: $name is not called in ctest/calls.c"
    done
} >> "$work/found"
cat "$work/found"
[ ! -s "$work/found" ] || exit 1
echo "edge: $(wc -l < "$work/calls") exported calls, none with a \`requires\`, each with an \`ensures\`, in the header and in calls.c"
