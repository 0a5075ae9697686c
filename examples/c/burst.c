/* The card of card.c, which judges cells in bursts: reads lines "cell MOMENT HEADER", judges up to four cells in one call, and
 * prints what card.c prints. After a refused cell it goes on with the next one. Ignores other lines. */
#include <inttypes.h>
#include <stdio.h>
#include "upc.h"

enum { BURST = 4 };

/* The cells of a burst and their moments. */
static uint8_t cells[BURST][UPC_CELL_OCTETS];
static uint64_t moments[BURST];

static void print_answer(const upc_answer *answer, const uint8_t *cell)
{
	static const char *const verdicts[] = {"pass", "tag", "discard", "refuse"};

	printf("%s 1/100 p1 %" PRIu32, verdicts[answer->verdict], answer->value);
	if (answer->verdict != UPC_DISCARD && answer->verdict != UPC_REFUSE)
		printf(" %02x%02x%02x%02x", cell[0], cell[1], cell[2], cell[3]);
	printf("\n");
}

/* Judges the first cells, `count` of them, in one call, and in one more after each cell that is refused. */
static void judge(upc_card *card, size_t count)
{
	upc_answer answers[BURST];
	upc_fault fault;
	size_t at = 0, done, k;

	while (at < count) {
		uint32_t result = upc_card_arrive_many(card, cells[at], sizeof cells - at * sizeof *cells, sizeof *cells, moments + at,
		                                       count - at, answers, BURST, &done, &fault);

		for (k = 0; k < done; k++)
			print_answer(&answers[k], cells[at + k]);
		at += done;
		if (result != 0) {
			printf("fault %s\n", upc_strerror(&fault));
			at++;
		}
	}
}

int main(void)
{
	static const uint8_t program[] = {
		0, 0x30, 0, 0, 0, 0, 0, 3, /* ldb [3]: the octet with the payload type */
		0, 0x45, 1, 0, 0, 0, 0, 8, /* jset #8: over one instruction if the cell is no user cell */
		0, 0x06, 0, 0, 0, 0, 0, 1, /* ret #1: by the contract */
		0, 0x06, 0, 0, 0, 0, 0, 0, /* ret #0: by none, so the cell is refused */
	};
	const upc_shape shape = {UPC_UNI, 1, 1, 1, 16};
	const upc_contract contract = {UPC_VBR3, 5, 0, 20, 20};
	upc_card card = {0, 0};
	upc_entry room[16];
	upc_journal journal;
	upc_fault fault;
	upc_id id;
	size_t count = 0;
	uint32_t header;
	char line[256];
	int k;

	if (upc_card_new(&shape, &card, &fault) != 0 || upc_card_load(&card, program, sizeof program, &id, &fault) != 0 ||
	    upc_card_setup(&card, 1, 100, &id, &contract, 1, &fault) != 0) {
		upc_card_free(&card);
		return 1;
	}
	while (fgets(line, sizeof line, stdin)) {
		if (sscanf(line, "cell %" SCNu64 " %8" SCNx32, &moments[count], &header) != 2)
			continue;
		for (k = 0; k < 4; k++)
			cells[count][k] = (uint8_t)(header >> (24 - 8 * k));
		if (++count == BURST) {
			judge(&card, count);
			count = 0;
		}
	}
	judge(&card, count);
	if (upc_card_cut(&card, 1, 100, room, 16, &journal, &fault) == 0)
		printf("cut 1/100 %lu %" PRIu64 " %" PRIu64 " %" PRIu64 " %" PRIu64 "\n", (unsigned long)journal.cells,
		       journal.after.passed, journal.after.tagged, journal.after.discarded, journal.after.refused);
	upc_card_free(&card);
	return 0;
}
