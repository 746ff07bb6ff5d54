#!/bin/sh
# Checks that docs/STATEMENTS.md quotes the source: each indented line of it that begins a clause or a law has to be a line
# of the source of some crate, word for word and whole.
#
#     tests/quotes.sh
set -eu
root=$(cd "$(dirname "$0")/.." && pwd)
work=$(mktemp -d)
trap 'rm -rf "$work"' EXIT
cat "$root"/crates/*/src/*.rt | sed -e 's/^ *//' -e 's/;$//' >"$work/source"
sed -n -e 's/^    \(ensures .*\)/\1/p' -e 's/^    \(ghost .*\)/\1/p' "$root/docs/STATEMENTS.md" | sort -u >"$work/clauses"

quoted=0
missing=0
while IFS= read -r clause; do
	quoted=$((quoted + 1))
	if ! grep -qxF -- "$clause" "$work/source"; then
		missing=$((missing + 1))
		echo "docs/STATEMENTS.md quotes what no source has: $clause" >&2
	fi
done <"$work/clauses"
echo "docs/STATEMENTS.md: $quoted clauses quoted, $missing not found in the source"
[ "$quoted" -gt 0 ] && [ "$missing" -eq 0 ]
