# shellcheck shell=sh
# Functions for the scripts that need the library's archive or the command: what is missing or older than its sources is built, quietly,
# with a line that says how far it is. Read by them with `.`, in the folder of the repository.

# Where the archive is, for the build of the command too. A caller may name the folder of another one.
: "${CORBASTRIGO_LIB_DIR:=$PWD/target/staticlib}"
export CORBASTRIGO_LIB_DIR

# progress TEXT: a line that the next one takes the place of, on a terminal.
progress() {
    if [ -t 2 ]; then printf '\r\033[K%s' "$1" >&2; fi
}

# Whether the archive is missing, or older than a source.
library_is_old() {
    [ ! -f "$CORBASTRIGO_LIB_DIR/libcorbastrigo.a" ] ||
        [ -n "$(find archive.sh crates crates.txt \( -name must-fail -o -name out \) -prune -o -newer "$CORBASTRIGO_LIB_DIR/libcorbastrigo.a" -type f -print | head -n 1)" ]
}

# The archive, by `rt`, which proves what is not proved yet. A folder that the caller named is taken as it is.
build_library() {
    if [ "$CORBASTRIGO_LIB_DIR" != "$PWD/target/staticlib" ]; then
        [ -f "$CORBASTRIGO_LIB_DIR/libcorbastrigo.a" ] || { echo "build: there is no libcorbastrigo.a in $CORBASTRIGO_LIB_DIR" >&2 && return 1; }
        return 0
    fi
    library_is_old || return 0
    command -v rt > /dev/null || { echo "build: there is no rt on the path (README.md says where it comes from)" >&2 && return 1; }
    echo "build: the library: every crate is proved, about 4 minutes the first time" >&2
    mkdir -p target
    all=$(awk -F: '$1 == "corbastrigo_c staticlib" { print split($2, below, " ") + 1 }' crates.txt)
    ./archive.sh > target/staticlib.log 2>&1 &
    prover=$!
    while kill -0 "$prover" 2> /dev/null; do
        progress "build: $(grep -c '^logic=proved' target/staticlib.log) of $all crates proved"
        sleep 1
    done
    progress ""
    wait "$prover" || { tail -n 20 target/staticlib.log >&2 && return 1; }
}

# The command, for release.
build_command() {
    command -v cargo > /dev/null || { echo "build: there is no cargo on the path, which builds the command" >&2 && return 1; }
    [ -x target/rust/release/asmap ] || echo "build: the command: about a minute the first time" >&2
    rust/cargo.sh build --quiet --release -p asmap
}
