/* Runs a program on cells, as `upc eval` does. The first hexadecimal line is the program. Each later one is a cell, or only a
 * header, with a payload of zeros. Ignores other lines. */
#include <ctype.h>
#include <inttypes.h>
#include <stdio.h>
#include <string.h>
#include "upc.h"

/* Reads the digits of a line into octets. Returns their number, or -1 if the line isn't hexadecimal. */
static int octets_of(const char *line, uint8_t *octets, int most)
{
	int count = 0;
	unsigned octet;

	while (isxdigit((unsigned char)line[0]) && isxdigit((unsigned char)line[1]) && count < most) {
		sscanf(line, "%2x", &octet);
		octets[count++] = (uint8_t)octet;
		line += 2;
	}
	return *line == '\n' || *line == 0 ? count : -1;
}

/* Prints the numbers of an error. */
static void refused(const upc_fault *fault)
{
	printf("fault kind %u number %u place %lu\n", (unsigned)fault->kind, (unsigned)fault->number, (unsigned long)fault->place);
}

int main(void)
{
	static char line[70000];
	static uint8_t octets[8 * 4096];
	upc_program program = {0, 0};
	uint32_t value, steps;
	upc_fault fault;
	int count, has_program = 0;

	while (fgets(line, sizeof line, stdin)) {
		if ((count = octets_of(line, octets, sizeof octets)) <= 0)
			continue;
		if (!has_program) {
			if (upc_program_new(octets, (size_t)count, &program, &fault) != 0) {
				refused(&fault);
				return 1;
			}
			has_program = 1;
			printf("accepted %d\n", count / 8);
			continue;
		}
		if (count == 4) {
			memset(octets + 4, 0, 48);
			count = UPC_CELL_OCTETS;
		}
		if (upc_program_run(&program, octets, (size_t)count, &value, &steps, &fault) == 0)
			printf("value %" PRIu32 " steps %" PRIu32 "\n", value, steps);
		else
			refused(&fault);
	}
	upc_program_free(&program);
	return 0;
}
