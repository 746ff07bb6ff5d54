#!/bin/sh
# Compares a message tool, a line tool, a session tool or a bench with the oracle, line by line.
#
#     tests/compare.sh message-tool PROGRAM [FIRST_SEED] [SEEDS] [CASES]
#     tests/compare.sh line-tool PROGRAM [FIRST_SEED] [SEEDS] [CASES]
#     tests/compare.sh session-tool PROGRAM [FIRST_SEED] [SEEDS] [CASES]
#     tests/compare.sh bench PROGRAM [FIRST_SEED] [SEEDS] [LINES]
#     tests/compare.sh bench-sessions PROGRAM [FIRST_SEED] [SEEDS] [LINES]
#
# For each of SEEDS seeds (10) from FIRST_SEED (1) on, the oracle generates
# lines of CASES cases, or about LINES lines (400); the program and the oracle's
# own one answer them, and the answers are compared byte for byte. At the end
# the numbers of lines and of answer lines are printed. At the first difference
# the script stops with status 1; it shows the input line that the difference
# comes from, and where the answers to it differ.
#
# The lines of a seed are one session of a bench. It sends at most 32 moves, so
# many seeds of few lines are worth more than few seeds of many. A program that
# runs many sessions gets that of the next seed too. For a session tool a case
# is a session, of about 250 lines.
#
# Run by hand, from any directory. Builds the oracle if it is not built yet;
# that needs cargo and no network.

set -eu
usage() {
	echo "usage: tests/compare.sh message-tool|line-tool|session-tool PROGRAM [FIRST_SEED] [SEEDS] [CASES]" >&2
	echo "       tests/compare.sh bench|bench-sessions PROGRAM [FIRST_SEED] [SEEDS] [LINES]" >&2
	exit 2
}
case ${1-} in
message-tool) generate=generate-messages unit=cases ;;
line-tool) generate=generate-lines unit=cases ;;
session-tool) generate=generate-sessions unit=cases ;;
bench | bench-sessions) generate=generate-bench unit=lines ;;
*) usage ;;
esac
if [ $# -lt 2 ] || [ $# -gt 5 ]; then
	usage
fi
tool=$1
program=$2
first=${3:-1}
seeds=${4:-10}
cases=${5:-400}

. "$(dirname "$0")/oracle.sh"

# Answers $work/input with both; true if the answers are the same and the
# program ended with status 0.
same() {
	"$oracle" "$tool" <"$work/input" >"$work/expected"
	status=0
	"$program" <"$work/input" >"$work/answers" || status=$?
	[ "$status" -eq 0 ] && cmp -s "$work/expected" "$work/answers"
}

# Prints the lines of a seed.
generate() {
	"$oracle" "$generate" "$1" "$cases"
	if [ "$tool" = bench-sessions ]; then
		printf '\n---\n'
		"$oracle" "$generate" "$(($1 + 1))" "$cases"
	fi
}

# Prints bytes readably, 20 lines at most, long ones cut off.
readable() {
	cat -v | cut -c 1-1300 | head -n 20
}

# Finds the first input line after which the answers differ, and shows it.
# Fewer lines than that give the same answers, so the middle is tried.
show_difference() {
	low=0
	high=$(grep -ac '' "$work/lines" || true)
	while [ $((high - low)) -gt 1 ]; do
		middle=$(((low + high) / 2))
		head -n "$middle" "$work/lines" >"$work/input"
		if same; then low=$middle; else high=$middle; fi
	done
	head -n "$low" "$work/lines" >"$work/input"
	same || true
	answered=$(grep -c '' "$work/expected" || true)
	head -n "$high" "$work/lines" >"$work/input"
	same || true
	tail -n "+$((answered + 1))" "$work/expected" >"$work/expected-end"
	tail -n "+$((answered + 1))" "$work/answers" >"$work/answers-end"
	echo "seed $seed, $cases $unit: the answers differ at input line $high:"
	tail -n 1 "$work/input" | readable
	echo "< the oracle answers, > the program answers (status $status):"
	diff -a "$work/expected-end" "$work/answers-end" | readable
}

lines=0
answers=0
seed=$first
while [ "$seed" -lt $((first + seeds)) ]; do
	generate "$seed" >"$work/lines"
	cp "$work/lines" "$work/input"
	if ! same; then
		show_difference
		exit 1
	fi
	lines=$((lines + $(grep -ac '' "$work/lines" || true)))
	answers=$((answers + $(grep -ac '' "$work/expected" || true)))
	seed=$((seed + 1))
done
echo "$seeds seeds from $first on, $cases $unit each:" \
	"$lines lines and $answers answer lines compared, no difference"
