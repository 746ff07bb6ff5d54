#!/bin/sh
# The lines that the gate runs the programs on, and the answers that they must give.
#
#     tests/stored-run.sh --check [CRATE..]    compares the stored files with what they should be
#     tests/stored-run.sh --write [CRATE..]    writes them anew
#
# The crates are message_tool, line_tool, session_tool, bench and bench_sessions; without any, all are meant. The lines
# are the crate's file stdin, the answers its file stdout. The answers are the oracle's, a second implementation in
# another language; those to the hash vectors are moreover those of the public library that the vectors were made with,
# and those to the shipped sessions are the ones shipped beside them. `rt ci` runs each program on its lines and compares
# what it writes with the answers.
set -eu
. "$(dirname "$0")/oracle.sh"

# Each of these prints the lines of a crate. Those of the tools are first what the oracle generates from a fixed seed, in
# as many cases as have all that the families of cases can do; then the shipped examples, and the rest. The session tool
# runs 128 sessions, 16 of each combination of kinds. A bench runs one session, and the program of many sessions runs the
# shipped ones and then one of each seed, more than 100,000 lines in all. The last line of all but the bench lacks its
# line end, on purpose.

message_tool_lines() {
	"$oracle" generate-messages 1 150
	echo
	cat "$root/examples/one-move.txt" "$root/examples/faults.txt" "$root/examples/summaries.txt"
	cat "$root/tests/murmur2/vectors.stdin"
	printf 'hash 0 7'
}

line_tool_lines() {
	"$oracle" generate-lines 1 84
	echo
	cat "$root/examples/two-lines.txt"
	"$oracle" generate-full-line
}

session_tool_lines() {
	"$oracle" generate-sessions 7 128
}

bench_lines() {
	cat "$root/examples/bench/one-move.txt"
}

bench_sessions_lines() {
	for session in "$root"/examples/bench/*.txt; do
		cat "$session"
		echo ---
	done
	seed=1
	while [ "$seed" -le 212 ]; do
		"$oracle" generate-bench "$seed" 440
		printf '\n---\n'
		seed=$((seed + 1))
	done
	printf 'N 1 7'
}

check() {
	cmp "$work/stdin" "$root/crates/$1/stdin"
	cmp "$work/stdout" "$root/crates/$1/stdout"
	lines=$(grep -ac '' "$work/stdin")
	answers=$(grep -ac '' "$work/stdout")
	echo "stored run of $1: $lines lines, $answers answers, as the oracle gives them"
}

write() {
	mkdir -p "$root/crates/$1"
	cp "$work/stdin" "$work/stdout" "$root/crates/$1/"
}

case ${1-} in
--check) act=check ;;
--write) act=write ;;
*)
	echo "usage: tests/stored-run.sh --check | --write [CRATE..]" >&2
	exit 2
	;;
esac
shift

"$oracle" message-tool <"$root/tests/murmur2/vectors.stdin" | cmp - "$root/tests/murmur2/vectors.stdout"
"$root/tests/sessions.sh" "$oracle" bench
for crate in ${*:-message_tool line_tool session_tool bench bench_sessions}; do
	"${crate}_lines" >"$work/stdin"
	"$oracle" "$(echo "$crate" | tr _ -)" <"$work/stdin" >"$work/stdout"
	"$act" "$crate"
done
