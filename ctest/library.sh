#!/bin/sh
# Prints the archive's path: that of CORBASTRIGO_LIB_DIR where it is set, else the repository's own, built where that is to be done.
cd "$(dirname "$0")/.." || exit 2
. ./build.sh
build_library || exit 1
echo "$CORBASTRIGO_LIB_DIR/libcorbastrigo.a"
