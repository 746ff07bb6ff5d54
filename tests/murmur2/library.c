/* MurmurHash2 from the library libbloom, behind the tool's `hash` lines.
 *
 *   library edges          prints `hash SEED NUMBER` lines, each edge seed with
 *                          each edge number
 *   library random N S     prints N such lines of random seeds and numbers; S
 *                          starts the random numbers
 *   library answer         reads such lines and answers each `hash VALUE`
 *
 * The number is hashed as its eight bytes, highest first. The library takes
 * its words from memory as they stand, so that the machine must keep the lowest
 * byte of a word first. libbloom-dev has no header for murmurhash2; its
 * parameters are the buffer, its length and the seed. */

#include <inttypes.h>
#include <stdint.h>
#include <stdio.h>
#include <stdlib.h>
#include <string.h>

unsigned int murmurhash2(const void *buffer, int len, unsigned int seed);

static uint64_t state;

/* SplitMix64. */
static uint64_t next_random(void)
{
	uint64_t z = (state += UINT64_C(0x9e3779b97f4a7c15));
	z = (z ^ (z >> 30)) * UINT64_C(0xbf58476d1ce4e5b9);
	z = (z ^ (z >> 27)) * UINT64_C(0x94d049bb133111eb);
	return z ^ (z >> 31);
}

static void print_line(uint32_t seed, uint64_t number)
{
	printf("hash %" PRIu32 " %" PRIu64 "\n", seed, number);
}

static void print_edges(void)
{
	static const uint32_t seeds[] = {
		0, 1, 8, UINT32_C(0x5bd1e995), UINT32_C(0x7fffffff),
		UINT32_C(0x80000000), UINT32_C(0xffffffff),
	};
	static const uint64_t numbers[] = {
		0, 1, 2, 7, 9, 127, 128, 255, 256, 65535, 65536,
		UINT64_C(0x7fffffff), UINT64_C(0x80000000),
		UINT64_C(0xffffffff), UINT64_C(0x100000000),
		UINT64_C(0x0102030405060708), UINT64_C(0x7fffffffffffffff),
		UINT64_C(0x8000000000000000), UINT64_C(0xfffffffffffffffe),
		UINT64_C(0xffffffffffffffff),
	};
	size_t s, n;

	for (s = 0; s < sizeof seeds / sizeof seeds[0]; s++)
		for (n = 0; n < sizeof numbers / sizeof numbers[0]; n++)
			print_line(seeds[s], numbers[n]);
}

static void print_random(unsigned long count)
{
	while (count-- > 0) {
		uint32_t seed = (uint32_t)(next_random() >> 32);
		print_line(seed, next_random());
	}
}

static int answer(void)
{
	uint32_t seed;
	uint64_t number;
	int fields, i;

	while ((fields = scanf(" hash %" SCNu32 " %" SCNu64, &seed, &number)) == 2) {
		unsigned char bytes[8];
		for (i = 0; i < 8; i++)
			bytes[i] = (unsigned char)(number >> (56 - 8 * i));
		printf("hash %u\n", murmurhash2(bytes, 8, seed));
	}
	return fields == EOF ? 0 : 1;
}

int main(int argc, char **argv)
{
	int status = 0;

	if (argc == 2 && strcmp(argv[1], "edges") == 0) {
		print_edges();
	} else if (argc == 4 && strcmp(argv[1], "random") == 0) {
		state = strtoull(argv[3], NULL, 10);
		print_random(strtoul(argv[2], NULL, 10));
	} else if (argc == 2 && strcmp(argv[1], "answer") == 0) {
		status = answer();
	} else {
		fprintf(stderr, "usage: library edges | random N S | answer\n");
		return 2;
	}
	if (fflush(stdout) != 0)
		status = 1;
	return status;
}
