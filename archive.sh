#!/bin/sh
# Has `rt` prove the library, as far as that has not been done, and build its static library; the archive is put where every other script
# looks for it, under the name that callers in C link.
cd "$(dirname "$0")" || exit 2
mkdir -p target/staticlib
(cd crates/corbastrigo_c && rt lib) && cp crates/corbastrigo_c/out/libcorbastrigo_c.a target/staticlib/libcorbastrigo.a
