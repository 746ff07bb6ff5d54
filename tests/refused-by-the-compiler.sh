#!/bin/sh
# Checks that a move has to be spent, and once: the compiler refuses each program of tests/panel/ for its own reason, before any
# proof, and accepts the one that spends its moves.
#
#     tests/refused-by-the-compiler.sh
#
# A program is head.txt and then a text, whose first line says what it gets: the name of an error, or "accepted". It is tried with
# no proof, as a crate beside a copy of the repository's, four at a time.
set -eu
root=$(cd "$(dirname "$0")/.." && pwd)
work=$(mktemp -d)
trap 'rm -rf "$work"' EXIT

# what a program is to get
expected() {
	sed -n '1s|^// \([^:]*\): .*|\1|p' "$root/tests/panel/$1.txt"
}

# what it got: the names of its errors, or "accepted" if it ran
answer() {
	if grep -q '^run=ended status=0 ' "$work/$1.log"; then
		echo accepted
	else
		sed -n 's/^[^ ]* error\[\([^]]*\)\].*/\1/p' "$work/$1.log" | paste -sd ' ' -
	fi
}

tar -C "$root" --exclude=out -cf - crates crates.txt | tar -C "$work" -xf -
programs=$(cd "$root/tests/panel" && ls -- *.txt | sed -e '/^head\.txt$/d' -e 's/\.txt$//')
for program in $programs; do
	mkdir -p "$work/crates/$program/src"
	cat "$root/tests/panel/head.txt" "$root/tests/panel/$program.txt" >"$work/crates/$program/src/main.rt"
	echo "$program: panel refusals settings summaries messages lines session" >>"$work/crates.txt"
done
cd "$work"
echo "$programs" | xargs -P 4 -I PROGRAM sh -c 'cd crates/PROGRAM && rt try >../../PROGRAM.log 2>&1' || true

differing=0
for program in $programs; do
	answer=$(answer "$program")
	echo "$program: $answer"
	if [ "$answer" != "$(expected "$program")" ]; then
		differing=$((differing + 1))
		echo "$program is to get $(expected "$program"):" >&2
		cat "$program.log" >&2
	fi
done
[ -n "$programs" ] && [ "$differing" -eq 0 ]
