#!/bin/sh
# Runs a bench on the shipped sessions and compares what it prints with the answers that are shipped beside them.
#
#     tests/sessions.sh PROGRAM [ARGUMENT..]
#
# One of the sessions is run once more, line by line: no line is given before the one before it is answered. At the first
# session that differs the script shows where, and stops with status 1.
set -eu
if [ $# -eq 0 ]; then
	echo "usage: tests/sessions.sh PROGRAM [ARGUMENT..]" >&2
	exit 2
fi
shipped=$(cd "$(dirname "$0")/.." && pwd)/examples/bench
work=$(mktemp -d)
trap 'rm -rf "$work"' EXIT

# Compares the answers to a session with those shipped.
check() {
	if ! diff "$shipped/$1.out" "$work/answers"; then
		echo "$1: other answers than those shipped (<)" >&2
		exit 1
	fi
}

sessions=0
for session in "$shipped"/*.txt; do
	name=$(basename "$session" .txt)
	status=0
	"$@" <"$session" >"$work/answers" || status=$?
	if [ "$status" -ne 0 ]; then
		echo "$name: the program ended with status $status" >&2
		exit 1
	fi
	check "$name"
	sessions=$((sessions + 1))
done

mkfifo "$work/to" "$work/from"
"$@" <"$work/to" >"$work/from" &
exec 3>"$work/to" 4<"$work/from"
while IFS= read -r line; do
	printf '%s\n' "$line" >&3
	if ! timeout 10 head -n 1 <&4; then
		echo "no answer within 10 seconds"
		break
	fi
done <"$shipped/one-move.txt" >"$work/answers"
exec 3>&- 4<&-
wait
check one-move
echo "$sessions shipped sessions, as their answers say"
