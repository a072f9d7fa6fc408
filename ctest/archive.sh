#!/bin/sh
# What the header says of the archive, read off it and tried: it wants memset and nothing else, defines the header's calls and no other
# name, has no section that can be written to, so no variables, takes less stack on any path than the header says, and has none of the
# instructions that only some x86-64 processors know. Then the calls from C are linked with it into a program that is
# position-independent, into one that is not, and into a shared object, with no relocation left in the code.
cd "$(dirname "$0")" || exit 2
archive=$(./library.sh) || exit 1
work=$(mktemp -d) || exit 2
trap 'rm -rf "$work"' EXIT
failed=0
complain() {
    echo "archive: $1"
    failed=1
}

names() {
    wanted=$(nm -u "$archive" | awk '$1 == "U" { print $2 }' | tr '\n' ' ')
    [ "$wanted" = "memset " ] || complain "it wants ${wanted:-nothing}, not memset alone"
    nm -g --defined-only "$archive" | awk 'NF == 3 { print $3 }' | sort > "$work/defined"
    awk -f declared.awk ../include/corbastrigo.h | sed 's/.* \(corbastrigo_[a-z0-9_]*\)(.*/\1/' | sort > "$work/declared"
    diff "$work/declared" "$work/defined" || complain "it defines (>) other names than the header declares (<)"
}

sections() {
    objdump -h "$archive" > "$work/sections"
    grep -q 'file format elf64-x86-64$' "$work/sections" || complain "it is not for x86-64"
    writable=$(awk '$1 ~ /^[0-9]+$/ { name = $2; size = $3 } /ALLOC/ && !/READONLY/ && size !~ /^0+$/ { print name }' "$work/sections")
    [ -z "$writable" ] || complain "it has sections that can be written to: $writable"
    grep -A 1 '\.note\.GNU-stack' "$work/sections" | grep -q 'READONLY$' || complain "it does not say that no code runs on its stack"
}

stack() {
    awk -f frames.awk "$work/code" > "$work/stack" || complain "its stack: $(grep unread "$work/stack")"
    cut -d' ' -f1 "$work/stack" | sort | cmp -s - "$work/declared" || complain "the stack of some call was not read"
    over=$(awk -v pick="$(./macro.sh CORBASTRIGO_PICK_STACK_BYTES)" -v two="$(./macro.sh CORBASTRIGO_COMPARE_STACK_BYTES)" \
        -v page="$(./macro.sh CORBASTRIGO_PAGE_STACK_BYTES)" -v other="$(./macro.sh CORBASTRIGO_STACK_BYTES)" \
        '$2 + 0 >= ($1 ~ /_page/ ? page : $1 ~ /_select_|_pick$/ ? pick : $1 ~ /_compare/ ? two : other) + 0' "$work/stack")
    [ -z "$over" ] || complain "it takes as much stack as the header's bound, or more: $over"
    most=$(sort -n -k 2 "$work/stack" | tail -n 1 | cut -d' ' -f2)
}

# tzcnt is left out: so objdump calls a bsf with a prefix that older processors pass over; the compiler writes it where both mean the same.
instructions() {
    newer='popcnt|lzcnt|andn|bextr|bls[ir]|blsmsk|bzhi|mulx|pdep|pext|rorx|sarx|sh[lr]x|movbe|crc32|v[a-z]+[a-z0-9]*'
    ! grep -E "[[:space:]]($newer)[[:space:]]|%[yz]mm" "$work/code" || complain "not every x86-64 processor knows these instructions"
}

# linked INTO WORDS...: the calls from C, compiled and linked with these words, pass.
linked() {
    into=$1
    shift
    { cc -std=c11 -O1 "$@" -Wl,-z,text -o "$work/calls" && "$work/calls" > "$work/said"; } || complain "it does not work in $into"
}

names
sections
objdump -dr --no-show-raw-insn "$archive" > "$work/code"
stack
instructions
linked "a position-independent program" -fPIE -pie calls.c "$archive"
linked "a program that is not position-independent" -fno-pie -no-pie calls.c "$archive"
cc -std=c11 -O1 -fPIC -shared -Dmain=calls calls.c "$archive" -Wl,-z,text,-z,defs -o "$work/libcalls.so" || complain "no shared object"
echo 'int calls(void); int main(void) { return calls(); }' > "$work/main.c"
linked "a shared object" "$work/main.c" "$work/libcalls.so" -Wl,-rpath,"$work"
[ "$failed" = 0 ] || exit 1
echo "archive: $(wc -l < "$work/defined") calls; wants memset, has no variables, takes at most $most bytes of stack on any path"
