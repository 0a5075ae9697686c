/* A policer in forty lines. Reads lines "cell MOMENT HEADER", judges the cells of one connection under VBR.3, and prints
 * each verdict with the header of the cell that leaves. Ignores other lines. */
#include <inttypes.h>
#include <stdio.h>
#include <string.h>
#include "upc.h"

int main(void)
{
	static const char *const verdicts[] = {"pass", "tag", "discard"};
	const upc_contract contract = {UPC_VBR3, 5, 0, 20, 20};
	upc_levels levels = {0, 0};
	upc_fault fault;
	char line[256];

	while (fgets(line, sizeof line, stdin)) {
		uint8_t cell[UPC_CELL_OCTETS] = {0};
		upc_fields fields;
		uint64_t moment;
		uint32_t header, verdict;
		int k;

		if (sscanf(line, "cell %" SCNu64 " %8" SCNx32, &moment, &header) != 2)
			continue;
		for (k = 0; k < 4; k++)
			cell[k] = (uint8_t)(header >> (24 - 8 * k));
		if (upc_cell_fields(cell, sizeof cell, UPC_UNI, &fields, &fault) != 0 ||
		    upc_judge(&contract, &levels, fields.clp, moment, &verdict, &fault) != 0 ||
		    (verdict == UPC_TAG && upc_cell_tag(cell, sizeof cell, &fault) != 0)) {
			printf("fault %s\n", upc_strerror(&fault));
			continue;
		}
		printf("%s %d/%d", verdicts[verdict], fields.vpi, fields.vci);
		if (verdict != UPC_DISCARD)
			printf(" %02x%02x%02x%02x", cell[0], cell[1], cell[2], cell[3]);
		printf("\n");
	}
	return 0;
}
