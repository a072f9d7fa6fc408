#!/bin/sh
# cargo.sh SUBCOMMAND...: cargo over this workspace, with the crates that it uses (clap, serde_json and others: Cargo.toml of each member).
#
# They come from cargo's usual registry. Debian has them as packages too, which put their sources into one folder; where all of them are
# installed that folder is used, and no network. As root on Debian the missing ones are installed first; elsewhere they are named. The
# folder stands on cargo's command line alone, and cargo then works in target/debian/rust, whose members are links to those here, so that its
# Cargo.lock with Debian's versions is in nobody's way. CORBASTRIGO_CRATES=registry takes the usual registry in any case.
cd "$(dirname "$0")" || exit 2
folder=/usr/share/cargo/registry
packages="librust-assert-cmd-dev librust-clap-complete-dev librust-clap-dev librust-console-dev librust-indicatif-dev
librust-proptest-dev librust-quick-error-dev librust-serde-json-dev librust-sha2-dev librust-tempfile-dev"

# The packages that are not installed.
missing() {
    for package in $packages; do
        dpkg-query -W -f '${db:Status-Status}\n' "$package" 2> /dev/null | grep -qx installed || printf ' %s' "$package"
    done
}

subcommand=$1
shift
CARGO_TARGET_DIR=${CARGO_TARGET_DIR:-$(cd .. && pwd)/target/rust}
export CARGO_TARGET_DIR
if [ "${CORBASTRIGO_CRATES:-}" = registry ] || ! command -v dpkg-query > /dev/null; then
    exec cargo "$subcommand" "$@"
fi
wanted=$(missing)
if [ -n "$wanted" ] && [ "$(id -u)" = 0 ]; then
    echo "rust: installing$wanted" >&2
    # shellcheck disable=SC2086
    { apt-get update -q && apt-get install -q -y --no-install-recommends $wanted; } > /dev/null 2>&1
    wanted=$(missing)
fi
if [ -n "$wanted" ]; then
    echo "rust: the crates come from cargo's registry. Without a network install them first: apt-get install$wanted" >&2
    exec cargo "$subcommand" "$@"
fi
shadow=../target/debian
mkdir -p "$shadow/rust"
ln -sfn "$(cd ../oracle && pwd)" "$shadow/oracle"
for name in Cargo.toml asmap corbastrigo corbastrigo-sys; do
    ln -sfn "$PWD/$name" "$shadow/rust/$name"
done
cd "$shadow/rust" || exit 2
exec cargo "$subcommand" --offline --config 'source.crates-io.replace-with="debian"' \
    --config "source.debian.directory=\"$folder\"" "$@"
