/* A meter as in the loop of a line card: one contract for all flows, and a table with the levels of each flow. Prints the
 * number of cells with each verdict, and the levels of the last flow. */
#include <inttypes.h>
#include <stdio.h>
#include "upc.h"

enum { FLOWS = 64, CELLS = 1000000 };

/* Sixteen bits of a linear congruential generator. */
static uint32_t random_bits(void)
{
	static uint32_t seed = 12345;
	seed = seed * 1103515245u + 12345u;
	return seed >> 16;
}

int main(void)
{
	static upc_levels flows[FLOWS];
	upc_contract contract = {UPC_VBR3, 100, 50, 400, 0};
	uint64_t counts[3] = {0, 0, 0}, moment = 0;
	upc_fault fault;
	int k;

	/* The limit of the sustainable rate: the burst tolerance of ten cells, and 50 ticks of delay variation. */
	if (upc_burst_tolerance(10, contract.sustained_increment, contract.peak_increment, &contract.sustained_limit, &fault))
		return 1;
	contract.sustained_limit += 50;
	if (upc_contract_check(&contract, &fault))
		return 1;
	for (k = 0; k < CELLS; k++) {
		uint32_t flow = random_bits() % FLOWS, clp = random_bits() % 2, verdict;

		moment += random_bits() % 4;
		if (upc_judge(&contract, &flows[flow], clp, moment, &verdict, &fault))
			return 1;
		counts[verdict]++;
	}
	printf("pass %" PRIu64 " tag %" PRIu64 " discard %" PRIu64 "\n", counts[0], counts[1], counts[2]);
	printf("levels %" PRIu64 " %" PRIu64 "\n", flows[FLOWS - 1].first, flows[FLOWS - 1].second);
	return 0;
}
