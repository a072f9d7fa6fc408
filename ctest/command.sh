#!/bin/sh
# The command as it is installed: its files, what the installed one answers, what a shell and `man` make of theirs; then it is
# uninstalled, and no file is left. Builds the command where that is to be done. Skipped (77) where make or cargo is missing.
cd "$(dirname "$0")/.." || exit 2
for tool in make cargo; do
    command -v $tool > /dev/null || { echo "command: skipped, since there is no $tool on this machine"; exit 77; }
done
work=$(mktemp -d) || exit 2
trap 'rm -rf "$work"' EXIT
unset DESTDIR PREFIX MAKEFLAGS
complain() {
    echo "command: $1"
    exit 1
}
make install-command PREFIX="$work/usr" > "$work/said" || complain "make install-command failed"
files=$(cd "$work/usr" && find . -type f | sort | tr '\n' ' ')
[ "$files" = "./bin/asmap ./share/bash-completion/completions/asmap ./share/fish/vendor_completions.d/asmap.fish \
./share/man/man1/asmap.1 ./share/zsh/site-functions/_asmap " ] || complain "installed are $files"
"$work/usr/bin/asmap" check docs/story/node.asmap > "$work/said" || complain "the installed command refuses the story's map"
bash -n "$work/usr/share/bash-completion/completions/asmap" || complain "bash does not read the completions"
grep -q '^\.TH' "$work/usr/share/man/man1/asmap.1" || complain "the manual page is none"
make uninstall PREFIX="$work/usr" > "$work/said" || complain "make uninstall failed"
left=$(find "$work/usr" ! -type d)
[ -z "$left" ] || complain "left behind are $left"
echo "command: installed with its manual page and completions, asked, and uninstalled"
