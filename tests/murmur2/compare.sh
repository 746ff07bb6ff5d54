#!/bin/sh
# Compares a program's MurmurHash2 with the public code, as Debian ships it in
# the package libbloom1, on a million random seeds and numbers.
#
#     compare.sh PROGRAM [ARGUMENT..]
#
# The program reads lines `hash SEED NUMBER` from standard input and answers
# each with `hash VALUE`. Prints how many were compared and how many differ,
# and the first that differ. The status is 0 if there are as many answers as
# lines and none differs, and the program ended with status 0.
#
# COUNT and START in the environment give another number of lines and another
# start of the random numbers. Run by hand; library.sh says what is needed.

set -eu
if [ $# -eq 0 ]; then
	echo "usage: compare.sh PROGRAM [ARGUMENT..]" >&2
	exit 2
fi
here=$(cd "$(dirname "$0")" && pwd)
count=${COUNT:-1000000}
start=${START:-2}
. "$here/library.sh"

"$work/library" random "$count" "$start" >"$work/lines"
"$work/library" answer <"$work/lines" >"$work/expected"
status=0
"$@" <"$work/lines" >"$work/answers" || status=$?

expected=$(wc -l <"$work/expected")
answers=$(wc -l <"$work/answers")
paste -d '|' "$work/lines" "$work/expected" "$work/answers" |
	awk -F '|' '$2 != $3 { print $1 ": the library answers " $2 ", the program " $3 }' \
		>"$work/differ"
differ=$(wc -l <"$work/differ")

head -n 5 "$work/differ"
echo "$expected compared, $answers answers, $differ differ"
if [ "$status" -ne 0 ]; then
	echo "the program ended with status $status"
fi
[ "$expected" -eq "$count" ] && [ "$status" -eq 0 ] &&
	cmp -s "$work/expected" "$work/answers"
