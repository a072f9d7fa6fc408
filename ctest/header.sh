#!/bin/sh
# The header by itself. It compiles without a warning in every standard of C and C++ that the compilers of this machine know, with its
# inline functions used or not; its version is that of rust/Cargo.toml, as text and as numbers; its words for the refusals are those of
# the safe crate, each number's, and of a new map's refusals those of the check's; and a walk's end is no abort at a RETURN and at a
# difference alone.
cd "$(dirname "$0")" || exit 2
work=$(mktemp -d) || exit 2
trap 'rm -rf "$work"' EXIT
header=../include/corbastrigo.h
complain() {
    echo "header: $1"
    exit 1
}

# compiles COMPILER LANGUAGE STANDARD FILE: whether the file compiles without a warning.
compiles() {
    "$1" -x "$2" -std="$3" -Wall -Wextra -Wconversion -Wundef -Werror -pedantic -O1 -c "$4" -o "$work/out.o"
}

# standards COMPILER LANGUAGE STANDARD...: compiles the header in those that the compiler knows, and counts them.
standards() {
    compiler=$1
    language=$2
    shift 2
    for standard in "$@"; do
        compiles "$compiler" "$language" "$standard" "$work/knows.c" 2> "$work/why" || continue
        compiles "$compiler" "$language" "$standard" "$work/unused.c" || complain "$compiler -std=$standard: a warning where nothing is used"
        compiles "$compiler" "$language" "$standard" words.c || complain "$compiler -std=$standard: a warning where it is used"
        count=$((count + 1))
    done
}

version() {
    ours=$(sed -n '/^\[workspace\.package\]/,/^$/s/^version = "\(.*\)"$/\1/p' ../rust/Cargo.toml)
    said=$(./macro.sh CORBASTRIGO_VERSION | tr -d '"')
    [ "$said" = "$ours" ] || complain "its version is $said, that of rust/Cargo.toml $ours"
    numbers=$(./macro.sh CORBASTRIGO_VERSION_MAJOR/CORBASTRIGO_VERSION_MINOR/CORBASTRIGO_VERSION_PATCH | tr / .)
    [ "$numbers" = "$ours" ] || complain "its version's numbers are $numbers, and the version $ours"
}

# refusal NAME: its number.
refusal() {
    sed -n "s/^ *CORBASTRIGO_$1 = \([0-9]*\).*/\1/p" $header
}

# The words of 0, of the refusals that the header numbers, of a new map's, and of all other numbers. The check's are all up to the short
# MATCHes, and the cut operand.
words() {
    cc words.c -o "$work/words" || exit 1
    refusal '[A-Z_]*' > "$work/numbers"
    "$work/words" | awk -v numbers="$work/numbers" -v known="$work/known" -v others="$work/others" -v ofnew="$work/new" \
        -v ofcheck="$work/check" -v ended="$work/ended" -v new="$(./macro.sh CORBASTRIGO_NEW_MAP)" -v last="$(refusal SHORT_MATCHES)" \
        -v operand="$(refusal CUT_OPERAND)" '
        function checks(number) { return (0 < number && number <= last + 0) || number == operand + 0 }
        BEGIN { while ((getline number < numbers) > 0) has[number] = 1 }
        $1 == "ended" { print $2 > ended; next }
        checks($1 - new) { $1 -= new; print > ofnew; next }
        checks($1 + 0) { print > ofcheck }
        { print > (($1 in has) ? known : others) }'
    sed -n 's/^.*[^0-9]\([0-9][0-9]*\)\(:\| =>\) "\(.*\)",$/\1 \3/p' ../rust/corbastrigo/src/refusal.rs > "$work/rust"
    diff "$work/rust" "$work/known" || complain "its words (>) are not those of rust/corbastrigo/src/refusal.rs (<)"
    diff "$work/check" "$work/new" || complain "a new map's refusals (>) say other words than the check's (<)"
    [ "$(wc -l < "$work/check")" -eq 11 ] || complain "the check has not eleven refusals"
    [ "$(head -n 1 "$work/others")" = "0 done" ] || complain "0 does not say done"
    others=$(sed '1d; s/^[0-9]* //' "$work/others" | sort -u)
    [ "$others" = "a reason that this version does not know" ] || complain "numbers that are no refusal say: $others"
    ended=$(tr '\n' ' ' < "$work/ended")
    [ "$ended" = "1 2 " ] || complain "the kinds of end that are no abort are: $ended"
}

echo 'int knows;' > "$work/knows.c"
echo "#include \"$(pwd)/$header\"" > "$work/unused.c"
count=0
for compiler in $(for name in cc gcc clang; do command -v "$name"; done | xargs -n 1 readlink -f | sort -u); do
    standards "$compiler" c c90 gnu90 c99 gnu99 c11 gnu11 c17 gnu17 c2x c23 gnu23
    standards "$compiler" c++ c++98 gnu++98 c++11 c++14 c++17 gnu++17 c++20 c++2b c++23 c++26
done
[ "$count" -ge 4 ] || complain "cc knows only $count of the standards"
version
words
echo "header: version $said, compiled $count times (by compiler and standard), $(wc -l < "$work/known") refusals in the safe crate's words"
