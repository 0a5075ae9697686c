/* Assembles and checks a source, as `upc check` does. Prints the number of instructions and the octets of the program, or
 * the error. With the argument "list" it prints the program's listing instead. */
#include <stdio.h>
#include <string.h>
#include "upc.h"

/* Prints the numbers of an error, and returns the exit status for it. */
static int refused(const upc_fault *fault)
{
	printf("fault kind %u number %u place %zu word %u code %04x\n", (unsigned)fault->kind, (unsigned)fault->number,
	       fault->place, (unsigned)fault->word, (unsigned)fault->code);
	return 1;
}

int main(int count, char **words)
{
	static uint8_t source[1 << 16], program[8 * 4096], text[1 << 18];
	size_t read = fread(source, 1, sizeof source, stdin), octets, length, k;
	upc_fault fault;

	if (upc_assemble(source, read, program, sizeof program, &octets, &fault) != 0 ||
	    upc_check(program, octets, &fault) != 0)
		return refused(&fault);
	if (count > 1 && strcmp(words[1], "list") == 0) {
		if (upc_listing(program, octets, text, sizeof text, &length, &fault) != 0)
			return refused(&fault);
		fwrite(text, 1, length, stdout);
		return 0;
	}
	printf("accepted %zu\n", octets / 8);
	for (k = 0; k < octets; k++)
		printf("%02x", program[k]);
	printf("\n");
	return 0;
}
