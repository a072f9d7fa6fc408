#!/bin/sh
# The library as a program in C meets it. The header by itself; the archive as the header tells of it; then, compiled against both with
# warnings as errors: the calls; the calls again with every two parameters exchanged, where they must fail (a crash will do, and leaves no
# core); the memory that is lent to them, with the compiler's sanitizers where it has them; and their stack. The archive is that of
# CORBASTRIGO_LIB_DIR, or rt makes it.
cd "$(dirname "$0")" || exit 2
ulimit -c 0
archive=$(./library.sh) || exit 1
CORBASTRIGO_LIB_DIR=$(dirname "$archive")
export CORBASTRIGO_LIB_DIR
out=../target
mkdir -p $out

# compiled PROGRAM WORDS...: compiles PROGRAM.c, links it with the archive, and runs it.
compiled() {
    program=$1
    shift
    cc -std=c11 -Wall -Wextra -Werror -pedantic -O1 -I$out "$program.c" "$archive" "$@" -o "$out/$program" && "$out/$program"
}

./header.sh || exit 1
./archive.sh || exit 1
compiled calls || exit 1
awk -f declared.awk ../include/corbastrigo.h | awk -f swaps.awk > $out/swaps.h
compiled swaps -Wno-cast-function-type || exit 1
sanitizers="-g -fsanitize=address,undefined -fno-sanitize-recover=all"
# shellcheck disable=SC2086
echo 'int main(void) { return 0; }' | cc -x c $sanitizers - -o $out/sanitized 2> $out/sanitized.log || {
    echo "memory lent to calls: without sanitizers, which this compiler does not have"
    sanitizers=""
}
# shellcheck disable=SC2086
compiled lent $sanitizers || exit 1
compiled stack -Wl,-z,now || exit 1
