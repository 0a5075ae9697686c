/* Checks random octets, some of them almost programs, for a number of seconds (the argument; 5 without one). Each result must
 * be one that the header allows, and the listing of an accepted program must assemble to an accepted program. */
#include <stdio.h>
#include <stdlib.h>
#include <string.h>
#include <time.h>
#include "upc.h"

enum { MOST = 64 };

static const uint8_t codes[] = {0x20, 0x28, 0x30, 0x40, 0x48, 0x50, 0x00, 0x60, 0x80, 0x01, 0x61, 0x81, 0xb1, 0x02, 0x03,
                                0x04, 0x14, 0x24, 0x34, 0x44, 0x54, 0x64, 0x74, 0x94, 0xa4, 0x0c, 0x1c, 0x2c, 0x3c, 0x4c,
                                0x5c, 0x6c, 0x7c, 0x9c, 0xac, 0x84, 0x05, 0x15, 0x25, 0x35, 0x45, 0x1d, 0x2d, 0x3d, 0x4d,
                                0x06, 0x16, 0x07, 0x87};

static uint32_t random_bits(void)
{
	static uint32_t seed = 2463534242u;
	seed ^= seed << 13;
	seed ^= seed >> 17;
	return seed ^= seed << 5;
}

/* Exits with status 1 if a result is impossible. */
static void ask(int holds, const char *what)
{
	if (!holds) {
		printf("otherwise: %s\n", what);
		exit(1);
	}
}

/* Fills a buffer, mostly with codes of the table, small offsets and a return at the end. Returns the number of octets. */
static size_t fill(uint8_t *octets)
{
	size_t places = random_bits() % 12, k;

	for (k = 0; k < 8 * places; k++)
		octets[k] = random_bits() % 50 == 0 ? (uint8_t)random_bits() : 0;
	for (k = 0; k < places; k++) {
		octets[8 * k + 1] = codes[random_bits() % sizeof codes];
		octets[8 * k + 2] = (uint8_t)(random_bits() % 3);
		octets[8 * k + 3] = (uint8_t)(random_bits() % 3);
		octets[8 * k + 7] = (uint8_t)(random_bits() % 20);
	}
	if (places > 0 && random_bits() % 8 != 0)
		octets[8 * places - 7] = 0x06;
	return 8 * places + (random_bits() % 32 == 0 ? 1 : 0);
}

/* Lists an accepted program, and expects that the listing assembles to an accepted program. */
static void list(const uint8_t *program, size_t length)
{
	uint8_t text[MOST * MOST], again[8 * MOST];
	size_t count, octets;
	upc_fault fault;

	ask(upc_listing(program, length, text, sizeof text, &count, &fault) == 0, "an accepted program has no listing");
	ask(upc_assemble(text, count, again, sizeof again, &octets, &fault) == 0, "a listing means no code");
	ask(octets == length, "a listing means another number of instructions");
	ask(upc_check(again, octets, &fault) == 0, "a listing's program is refused");
}

int main(int count, char **words)
{
	double seconds = count > 1 ? atof(words[1]) : 5;
	unsigned long accepted = 0, refused[9] = {0};
	time_t end = time(NULL) + (time_t)seconds;

	do {
		/* Exactly as long as the octets, so that an address checker sees each read beyond them. */
		uint8_t octets[8 * MOST], *program;
		size_t length = fill(octets);
		upc_fault fault;
		uint32_t result;

		program = (uint8_t *)malloc(length + 1);
		ask(program != NULL, "no memory");
		memcpy(program + 1, octets, length);
		result = upc_check(program + 1, length, &fault);
		ask(result == 256 * fault.kind + fault.number, "the result isn't the fault's");
		ask((result == 0) == (fault.kind == UPC_FINE) && (result == 0) == (fault.number == 0), "a kind without a number");
		if (result == 0) {
			accepted++;
			list(program + 1, length);
		} else {
			ask(result == UPC_DECODE_RAGGED || result == UPC_DECODE_UNKNOWN_CODE ||
			        (result >= UPC_VERIFY_EMPTY && result <= UPC_VERIFY_UNWRITTEN),
			    "a fault of another kind");
			ask(fault.place <= length / 8, "a place outside");
			if (fault.kind == UPC_VERIFY)
				refused[fault.number]++;
		}
		free(program);
	} while (time(NULL) < end);
	ask(accepted > 0 && refused[1] > 0 && refused[3] > 0 && refused[6] > 0 && refused[8] > 0, "too few kinds of answers");
	printf("each answer was one of those that the header allows\n");
	return 0;
}
