/* Compiles rules for classes of cells, as `upc-lab rules` does. Prints the number of instructions and the octets of the
 * program, or the fault with its line and column. */
#include <stdio.h>
#include "upc.h"

int main(void)
{
	static uint8_t rules[1 << 16], program[8 * 4096];
	size_t read = fread(rules, 1, sizeof rules, stdin), octets, k;
	upc_fault fault;

	if (upc_rules_compile(rules, read, program, sizeof program, &octets, &fault) != 0) {
		printf("fault %s %lu %lu\n", upc_strerror(&fault), (unsigned long)fault.place, (unsigned long)fault.column);
		return 1;
	}
	printf("accepted %lu\n", (unsigned long)(octets / 8));
	for (k = 0; k < octets; k++)
		printf("%02x", program[k]);
	printf("\n");
	return 0;
}
