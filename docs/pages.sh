#!/bin/sh
# Holds README.md to the toolchain: the kit may be a later one, but its logic, which the proofs stand on, is the one that is named there.
# Holds docs/PROMISES.md to the tree. Each must-fail edit stands in it by name, and no edit is named that is not there; its first table
# has every file of definitions (crates/*/specs, without the models) with its lines, comments, imports and blanks not counted, and no
# other. With --lines it prints that table's rows, for the page.
cd "$(dirname "$0")/.." || exit 2
page=docs/PROMISES.md
failed=0
complain() {
    echo "pages: $page: $1"
    failed=1
}

# The files of definitions, each with its lines: `crate/specs/File` LINES.
definitions() {
    for file in crates/*/specs/*.antt; do
        case $file in */Lib.antt | */models.antt) continue ;; esac
        lines=$(grep -cvE '^[[:space:]]*(--|use |unfolding |$)' "$file")
        name=${file#crates/}
        echo "${name%.antt} $lines"
    done
}

if [ "${1:-}" = --lines ]; then
    definitions | while read -r name lines; do echo "| \`$name\` | $lines |"; done
    exit 0
fi

for edit in crates/*/must-fail/*.edit; do
    name=$(basename "$edit" .edit)
    grep -q "\`$name\`" "$page" || complain "the edit $edit stands in no row"
done
total=0
for pair in $(definitions | tr ' ' ':'); do
    name=${pair%:*}
    lines=${pair#*:}
    total=$((total + lines))
    grep -q "^| \`$name\` | $lines |" "$page" || complain "the first table has no row \`$name\` | $lines"
done
for name in $(sed -n 's/^| `\([a-z_0-9]*\/specs\/[A-Za-z]*\)` | [0-9]* |.*/\1/p' "$page"); do
    [ -f "crates/$name.antt" ] || complain "it names $name, which is not there"
done
logic=$(rt version | sed 's/.* logic //')
grep -q "\`rattle-kit-[0-9a-z-]* logic $logic\`" README.md || { echo "pages: README.md names another toolchain than $(rt version)" && failed=1; }
# The page says in a sentence how many lines there are in all.
said=$(sed -n 's/^is for a reader to judge: \([0-9,]*\) lines .*/\1/p' "$page" | tr -d ,)
[ "$said" = "$total" ] || complain "it says '$said' lines of definitions, and there are $total"
[ "$failed" = 0 ] || exit 1
echo "pages: $page names every edit and every file of definitions ($total lines)"
