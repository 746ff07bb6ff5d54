# Read by make-vectors.sh and compare.sh, not run by itself.
#
# Makes a directory for passing files, $work, which is removed at the end, and
# builds library.c into $work/library. That program hashes with the function
# murmurhash2 of the Debian package libbloom1, which is installed if it is
# missing; that needs the rights of root and the network. gcc is needed too.

work=$(mktemp -d)
trap 'rm -rf "$work"' EXIT

if ! dpkg -s libbloom1 >/dev/null 2>&1; then
	apt-get -qq install -y libbloom1 >&2 ||
		{ apt-get -qq update >&2 && apt-get -qq install -y libbloom1 >&2; }
fi

gcc -O2 -Wall -Wextra -o "$work/library" "$here/library.c" -l:libbloom.so.1
