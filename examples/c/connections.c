/* A listing of a card's connections: sets up three, judges some cells, and prints for each connection its state, its contracts
 * with their levels, and by how much one more cell at the moment of the last would come too early. */
#include <inttypes.h>
#include <stdio.h>
#include "upc.h"

static upc_fault fault;

/* A cell on path 1 and this channel. Prints its verdict. */
static void arrive(upc_card *card, uint32_t channel, uint64_t moment)
{
	static const char *const verdicts[] = {"pass", "tag", "discard", "refuse"};
	const uint32_t header = 1u << 20 | channel << 4;
	uint8_t cell[UPC_CELL_OCTETS] = {(uint8_t)(header >> 24), (uint8_t)(header >> 16), (uint8_t)(header >> 8), (uint8_t)header};
	upc_answer answer;

	if (upc_card_arrive(card, cell, sizeof cell, moment, &answer, &fault) == 0)
		printf("cell %" PRIu64 " on 1/%" PRIu32 ": %s\n", moment, channel, verdicts[answer.verdict]);
}

static void print_meter(const upc_meter *it, unsigned number, uint64_t moment)
{
	static const char *const kinds[] = {"", "cbr1", "vbr1", "vbr2", "vbr3"};
	const upc_contract *contract = &it->contract;
	upc_excess excess;

	printf("  contract %u %s:%" PRIu64 "/%" PRIu64, number, kinds[contract->kind], contract->peak_increment, contract->peak_limit);
	if (contract->kind != UPC_CBR1)
		printf(":%" PRIu64 "/%" PRIu64, contract->sustained_increment, contract->sustained_limit);
	printf(" due %" PRIu64 " %" PRIu64, it->levels.first, it->levels.second);
	if (upc_excess_of(contract, &it->levels, 0, moment, &excess, &fault) == 0 && excess.bucket != 0)
		printf(", a cell now: %" PRIu64 " ticks too early for bucket %u", excess.ticks, (unsigned)excess.bucket);
	printf("\n");
}

int main(void)
{
	static const uint8_t program[] = {0, 6, 0, 0, 0, 0, 0, 1}; /* ret #1: each cell by contract 1 */
	const upc_shape shape = {UPC_UNI, 1, 4, 1, 16};
	const upc_contract contracts[] = {{UPC_VBR3, 10, 5, 40, 12}, {UPC_CBR1, 10, 0, 0, 0}};
	upc_meter meters[UPC_MOST_CONTRACTS];
	upc_cursor at = {0, 0, 0};
	upc_card card = {0, 0};
	upc_state state;
	upc_id id;
	unsigned k;

	if (upc_card_new(&shape, &card, &fault) != 0 || upc_card_load(&card, program, sizeof program, &id, &fault) != 0 ||
	    upc_card_setup(&card, 1, 101, &id, contracts, 1, &fault) != 0 ||
	    upc_card_setup(&card, 1, 100, &id, contracts + 1, 1, &fault) != 0 ||
	    upc_card_setup(&card, 0, 700, &id, contracts, 2, &fault) != 0) {
		upc_card_free(&card);
		return 1;
	}
	arrive(&card, 101, 0);
	arrive(&card, 101, 4);
	arrive(&card, 101, 5);
	arrive(&card, 100, 0);
	arrive(&card, 100, 10);
	arrive(&card, 100, 15);
	while (upc_card_next(&card, &at, &fault) == 0) {
		if (upc_card_state(&card, at.path, at.channel, meters, UPC_MOST_CONTRACTS, &state, &fault) != 0)
			break;
		printf("%u/%u setup %" PRIu64 " last %" PRIu64 " journal %lu", (unsigned)at.path, (unsigned)at.channel,
		       state.incarnation, state.last, (unsigned long)state.cells);
		printf(" passed %" PRIu64 " tagged %" PRIu64 " discarded %" PRIu64 " refused %" PRIu64 "\n", state.counts.passed,
		       state.counts.tagged, state.counts.discarded, state.counts.refused);
		for (k = 0; k < state.contracts; k++)
			print_meter(&meters[k], k + 1, state.last);
	}
	printf("%s\n", upc_strerror(&fault));
	upc_card_free(&card);
	return 0;
}
