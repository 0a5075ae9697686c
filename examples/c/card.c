/* A card in fifty lines. Reads lines "cell MOMENT HEADER", judges the cells of one connection, VPI/VCI 1/100, by the contract
 * that a program names, and prints each verdict with the header of the cell that leaves. Ignores other lines. */
#include <inttypes.h>
#include <stdio.h>
#include "upc.h"

int main(void)
{
	static const char *const verdicts[] = {"pass", "tag", "discard", "refuse"};
	static const uint8_t program[] = {
		0, 0x30, 0, 0, 0, 0, 0, 3, /* ldb [3]: the octet with the payload type */
		0, 0x45, 1, 0, 0, 0, 0, 8, /* jset #8: over one instruction if the cell is no user cell */
		0, 0x06, 0, 0, 0, 0, 0, 1, /* ret #1: by the contract */
		0, 0x06, 0, 0, 0, 0, 0, 0, /* ret #0: by none, so the cell is refused */
	};
	const upc_shape shape = {UPC_UNI, 1, 1, 1, 16};
	const upc_contract contract = {UPC_VBR3, 5, 0, 20, 20};
	upc_card card = {0, 0};
	upc_entry room[16];
	upc_journal journal;
	upc_fault fault;
	upc_id id;
	char line[256];

	if (upc_card_new(&shape, &card, &fault) != 0 || upc_card_load(&card, program, sizeof program, &id, &fault) != 0 ||
	    upc_card_setup(&card, 1, 100, &id, &contract, 1, &fault) != 0) {
		upc_card_free(&card);
		return 1;
	}
	while (fgets(line, sizeof line, stdin)) {
		uint8_t cell[UPC_CELL_OCTETS] = {0};
		uint64_t moment;
		upc_answer answer;
		uint32_t header;
		int k;

		if (sscanf(line, "cell %" SCNu64 " %8" SCNx32, &moment, &header) != 2)
			continue;
		for (k = 0; k < 4; k++)
			cell[k] = (uint8_t)(header >> (24 - 8 * k));
		if (upc_card_arrive(&card, cell, sizeof cell, moment, &answer, &fault) != 0) {
			printf("fault %s\n", upc_strerror(&fault));
			continue;
		}
		printf("%s 1/100 p1 %" PRIu32, verdicts[answer.verdict], answer.value);
		if (answer.verdict != UPC_DISCARD && answer.verdict != UPC_REFUSE)
			printf(" %02x%02x%02x%02x", cell[0], cell[1], cell[2], cell[3]);
		printf("\n");
	}
	if (upc_card_cut(&card, 1, 100, room, 16, &journal, &fault) == 0)
		printf("cut 1/100 %lu %" PRIu64 " %" PRIu64 " %" PRIu64 " %" PRIu64 "\n", (unsigned long)journal.cells,
		       journal.after.passed, journal.after.tagged, journal.after.discarded, journal.after.refused);
	upc_card_free(&card);
	return 0;
}
