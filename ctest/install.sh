#!/bin/sh
# The library as it is installed: below a prefix, and in a folder for a package (DESTDIR). A program is compiled each time with what
# pkg-config says and nothing else, and run; then all is uninstalled, and no file is left. Skipped (77) where make or pkg-config is missing.
cd "$(dirname "$0")/.." || exit 2
for tool in make pkg-config; do
    command -v $tool > /dev/null || { echo "install: skipped, since there is no $tool on this machine"; exit 77; }
done
archive=$(ctest/library.sh) || exit 1
CORBASTRIGO_LIB_DIR=$(dirname "$archive")
work=$(mktemp -d) || exit 2
trap 'rm -rf "$work"' EXIT
# What pkg-config is told here, and nothing of the caller's.
unset PKG_CONFIG_PATH PKG_CONFIG_SYSROOT_DIR DESTDIR PREFIX MAKEFLAGS
export CORBASTRIGO_LIB_DIR PKG_CONFIG_LIBDIR
complain() {
    echo "install: $1"
    exit 1
}

# placed WHERE PREFIX DESTDIR: installs, compiles and runs the program, and uninstalls.
placed() {
    root=$3$2
    PKG_CONFIG_LIBDIR=$root/lib/pkgconfig
    make install-library PREFIX="$2" DESTDIR="$3" > "$work/said" || complain "$1: make install-library failed"
    files=$(cd "$root" && find . -type f | sort | tr '\n' ' ')
    [ "$files" = "./include/corbastrigo.h ./lib/libcorbastrigo.a ./lib/pkgconfig/corbastrigo.pc " ] || complain "$1: installed are $files"
    cmp "$archive" "$root/lib/libcorbastrigo.a" && cmp include/corbastrigo.h "$root/include/corbastrigo.h" || exit 1
    grep -qx "prefix=$2" "$PKG_CONFIG_LIBDIR/corbastrigo.pc" || complain "$1: the pkg-config file names another prefix"
    # shellcheck disable=SC2046
    cc ctest/installed.c $(pkg-config --cflags --libs corbastrigo) -o "$work/installed" || complain "$1: the program does not compile"
    answer=$("$work/installed")
    [ "$answer" = "$(pkg-config --modversion corbastrigo): an operand is cut by the map's end" ] || complain "$1: the program says $answer"
    make uninstall PREFIX="$2" DESTDIR="$3" > "$work/said" || complain "$1: make uninstall failed"
    left=$(find "$root" ! -type d)
    [ -z "$left" ] || complain "$1: left behind are $left"
}

placed "below a prefix" "$work/usr" ""
PKG_CONFIG_SYSROOT_DIR=$work/package
export PKG_CONFIG_SYSROOT_DIR
placed "in a folder for a package" "$work/opt" "$work/package"
[ ! -e "$work/opt" ] || complain "with DESTDIR something was installed below the prefix itself"
echo "install: $answer (said by a program over the installed files, below a prefix and in a folder for a package)"
