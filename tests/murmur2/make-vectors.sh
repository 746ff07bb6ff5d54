#!/bin/sh
# Makes the MurmurHash2 vectors from the public code, as Debian ships it in the
# package libbloom1: vectors.stdin has about 200 lines `hash SEED NUMBER` for
# the message tool, vectors.stdout the library's answers, line for line.
#
# First come edge seeds with edge numbers, then random ones. The random numbers
# start from a fixed number, so that the files are always the same.
#
# Run by hand, with no arguments, from any directory. library.sh says what is
# needed. To check a tool:
#     TOOL < vectors.stdin | cmp - vectors.stdout

set -eu
here=$(cd "$(dirname "$0")" && pwd)
. "$here/library.sh"

"$work/library" edges >"$work/stdin"
"$work/library" random 60 1 >>"$work/stdin"
"$work/library" answer <"$work/stdin" >"$work/stdout"

cat "$work/stdin" >"$here/vectors.stdin"
cat "$work/stdout" >"$here/vectors.stdout"
echo "$(wc -l <"$here/vectors.stdout") vectors written"
