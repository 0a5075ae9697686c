/* Makes the calls at each limit that the header names: at the limit a call succeeds, and one beyond it fails with the error
 * that belongs to the limit. Prints what was tried, and exits with status 1 if a call answers otherwise. */
#include <stdio.h>
#include <stdlib.h>
#include <string.h>
#include "upc.h"

enum { PROGRAMS = 1024, LINES = 4096, PORTS = 16, JOURNAL = 65536, INSTRUCTIONS = 4096, SOURCE = 1048576 };

static upc_fault fault;

/* Exits if a call answered otherwise. */
static void ask(int holds, const char *what)
{
	if (!holds) {
		printf("otherwise: %s: %s, place %lu\n", what, upc_strerror(&fault), (unsigned long)fault.place);
		exit(1);
	}
}

/* Expects that a call failed with this error. */
static void refused(const char *what, uint32_t result, uint32_t wanted)
{
	ask(result == wanted && 256 * fault.kind + fault.number == wanted, what);
}

static void *room_of(size_t size)
{
	void *room = malloc(size);

	ask(room != NULL, "no memory for the test");
	return room;
}

/* ret #NUMBER */
static void put_return(uint8_t *octets, uint32_t number)
{
	int k;

	memset(octets, 0, 8);
	octets[1] = 0x06;
	for (k = 0; k < 4; k++)
		octets[4 + k] = (uint8_t)(number >> (24 - 8 * k));
}

/* Assembles a source of this many octets: the line "ret #1", as often as it fits, and blanks at the end. */
static void assemble(size_t length)
{
	static const char line[] = "ret #1\n";
	static const uint8_t octets[8] = {0, 6, 0, 0, 0, 0, 0, 1};
	size_t lines = length / 7, count = 0, k;
	uint8_t *source = (uint8_t *)room_of(length), *room = (uint8_t *)room_of(8 * lines);

	memset(source, ' ', length);
	for (k = 0; k < lines; k++)
		memcpy(source + 7 * k, line, 7);
	ask(upc_assemble(source, length, room, 8 * lines, &count, &fault) == 0 && count == 8 * lines, "a long source");
	for (k = 0; k < lines; k++)
		ask(memcmp(room + 8 * k, octets, 8) == 0, "an instruction of a long source");
	ask(upc_assemble(source, length, room, 8 * lines - 1, &count, &fault) == UPC_NO_ROOM && fault.place == 8 * lines,
	    "a room that lacks one octet");
	source[7 * lines - 2] = 'x';
	ask(upc_assemble(source, length, room, 8 * lines, &count, &fault) != 0 && fault.kind == UPC_ASM && fault.place == lines,
	    "the last line of a long source");
	printf("a source of %lu octets has %lu instructions\n", (unsigned long)length, (unsigned long)lines);
	free(source);
	free(room);
}

/* A program of 4096 instructions takes 4096 steps, and none may have more. */
static void run_longest(void)
{
	uint8_t *octets = (uint8_t *)room_of(8 * (INSTRUCTIONS + 1)), *text = (uint8_t *)room_of(16 * INSTRUCTIONS);
	uint8_t *again = (uint8_t *)room_of(8 * INSTRUCTIONS);
	uint8_t cell[UPC_CELL_OCTETS] = {0};
	upc_program program = {0, 0};
	uint32_t value = 0, steps = 0;
	size_t k, count;

	for (k = 0; k <= INSTRUCTIONS; k++) {
		memset(octets + 8 * k, 0, 8);
		octets[8 * k + 1] = 0x04; /* add #1 */
		octets[8 * k + 7] = 1;
	}
	octets[8 * INSTRUCTIONS - 7] = 0x16; /* ret a */
	octets[8 * INSTRUCTIONS - 1] = 0;
	octets[8 * INSTRUCTIONS + 1] = 0x16;
	ask(upc_program_new(octets, 8 * INSTRUCTIONS, &program, &fault) == 0, "4096 instructions");
	ask(upc_program_run(&program, cell, sizeof cell, &value, &steps, &fault) == 0, "a run of 4096 instructions");
	ask(value == INSTRUCTIONS - 1 && steps == INSTRUCTIONS, "the value of 4096 instructions");
	upc_program_free(&program);
	refused("4097 instructions", upc_program_new(octets, 8 * (INSTRUCTIONS + 1), &program, &fault), UPC_VERIFY_TOO_LONG);
	ask(upc_listing(octets, 8 * INSTRUCTIONS, text, 16 * INSTRUCTIONS, &count, &fault) == 0, "the listing of 4096 instructions");
	ask(upc_assemble(text, count, again, 8 * INSTRUCTIONS, &count, &fault) == 0 && count == 8 * INSTRUCTIONS &&
	        memcmp(again, octets, count) == 0,
	    "the code that the listing means");
	printf("a program of %d instructions took %u steps\n", (int)INSTRUCTIONS, (unsigned)steps);
	free(octets);
	free(again);
	free(text);
}

/* The largest numbers of contracts, levels, moments and burst tolerances. */
static void judge_largest(void)
{
	upc_contract it = {UPC_VBR3, UPC_MOST_TICKS, UPC_MOST_TICKS, UPC_MOST_TICKS, UPC_MOST_TICKS};
	upc_levels levels = {UPC_LAST_LEVEL, UPC_LAST_LEVEL};
	upc_excess excess;
	uint64_t ticks = 0;
	uint32_t verdict = 9;

	ask(upc_contract_check(&it, &fault) == 0, "a contract of the largest numbers");
	ask(upc_judge(&it, &levels, 0, UPC_LAST_MOMENT, &verdict, &fault) == 0 && verdict == UPC_DISCARD, "the last levels");
	ask(upc_excess_of(&it, &levels, 0, UPC_LAST_MOMENT, &excess, &fault) == 0 && excess.bucket == 1 && excess.ticks == UPC_MOST_TICKS,
	    "how early that is");
	ask(upc_excess_of(&it, &levels, 0, UPC_LAST_MOMENT - excess.ticks, &excess, &fault) == 0 && excess.ticks == 2 * UPC_MOST_TICKS,
	    "and how early before it");
	levels.first = levels.second = 0;
	ask(upc_judge(&it, &levels, 0, UPC_LAST_MOMENT, &verdict, &fault) == 0 && verdict == UPC_PASS, "the last moment");
	ask(levels.first == UPC_LAST_MOMENT + UPC_MOST_TICKS && levels.second == levels.first, "the levels after the last moment");
	refused("one tick more", upc_judge(&it, &levels, 0, UPC_LAST_MOMENT + 1, &verdict, &fault), UPC_ARRIVE_MOMENT_TOO_LATE);
	refused("one tick more for an excess", upc_excess_of(&it, &levels, 0, UPC_LAST_MOMENT + 1, &excess, &fault),
	        UPC_ARRIVE_MOMENT_TOO_LATE);
	levels.second = UPC_LAST_LEVEL + 1;
	refused("one level more", upc_judge(&it, &levels, 0, UPC_LAST_MOMENT, &verdict, &fault), UPC_LATE_LEVELS);
	it.sustained_limit++;
	refused("one tick more in the limit", upc_contract_check(&it, &fault), UPC_GCRA_TOO_LARGE);
	ask(upc_burst_tolerance(2, UPC_MOST_TICKS, 0, &ticks, &fault) == 0 && ticks == UPC_MOST_TICKS, "the largest tolerance");
	refused("one tick more in the tolerance", upc_burst_tolerance(2, UPC_MOST_TICKS + 1, 0, &ticks, &fault), UPC_BURST_TOO_LARGE);
	printf("contracts, levels, moments and tolerances\n");
}

/* The shapes of cards: each number at its limits, and one beyond. */
static void make_cards(void)
{
	static const upc_shape least = {UPC_UNI, 1, 1, 1, 1}, most = {UPC_NNI, PROGRAMS, LINES, PORTS, JOURNAL};
	upc_card card = {0, 0};
	upc_shape shape;
	int k;

	ask(upc_card_new(&least, &card, &fault) == 0, "the smallest card");
	upc_card_free(&card);
	ask(upc_card_new(&most, &card, &fault) == 0, "the largest card");
	upc_card_free(&card);
	for (k = 0; k < 8; k++) {
		shape = k < 4 ? least : most;
		if (k % 4 == 0)
			shape.programs += k < 4 ? (uint64_t)-1 : 1;
		else if (k % 4 == 1)
			shape.lines += k < 4 ? (uint64_t)-1 : 1;
		else if (k % 4 == 2)
			shape.ports += k < 4 ? (uint64_t)-1 : 1;
		else
			shape.journal += k < 4 ? (uint64_t)-1 : 1;
		refused("a number beyond its limit", upc_card_new(&shape, &card, &fault), (uint32_t)(UPC_SHAPE_PROGRAMS + k % 4));
	}
	printf("cards of the smallest and the largest shape\n");
}

/* 1024 programs on a card. */
static void load_all(void)
{
	static const upc_shape shape = {UPC_UNI, PROGRAMS, 1, 1, 1};
	upc_id *ids = (upc_id *)room_of(PROGRAMS * sizeof *ids), other = {7, 7};
	upc_card card = {0, 0};
	uint8_t octets[8];
	uint32_t k;

	ask(upc_card_new(&shape, &card, &fault) == 0, "a card of 1024 programs");
	for (k = 0; k < PROGRAMS; k++) {
		put_return(octets, k);
		ask(upc_card_load(&card, octets, sizeof octets, &ids[k], &fault) == 0, "a program");
	}
	refused("one program more", upc_card_load(&card, octets, sizeof octets, &other, &fault), UPC_DESK_PROGRAMS_FULL);
	ask(upc_card_retire(&card, &ids[500], &fault) == 0, "retiring a program");
	ask(upc_card_load(&card, octets, sizeof octets, &other, &fault) == 0 && other.slot == ids[500].slot &&
	        other.generation == ids[500].generation + 1,
	    "a program in its place");
	refused("a retired name", upc_card_retire(&card, &ids[500], &fault), UPC_DESK_NO_PROGRAM);
	upc_card_free(&card);
	free(ids);
	printf("%d programs\n", (int)PROGRAMS);
}

/* The listing of 4096 connections, of which each has judged one cell. */
static void list_all(const upc_card *card)
{
	upc_meter room[UPC_MOST_CONTRACTS];
	upc_cursor at = {0, 0, 0};
	upc_state state;
	uint32_t k;

	for (k = 0; k < LINES; k++) {
		ask(upc_card_next(card, &at, &fault) == 0 && at.path == k && at.channel == 65535 - k, "the next connection");
		ask(upc_card_state(card, at.path, at.channel, room, UPC_MOST_CONTRACTS, &state, &fault) == 0 &&
		        state.contracts == UPC_MOST_CONTRACTS && state.incarnation == k + 1 && state.last == k && state.cells == 1,
		    "its state");
		ask(room[2].levels.first == 0 && room[3].levels.first == k + 10, "its levels");
	}
	refused("one connection more", upc_card_next(card, &at, &fault), UPC_DESK_NO_CONNECTION);
	refused("a room of three", upc_card_state(card, 0, 65535, room, 3, &state, &fault), UPC_NO_ROOM);
	ask(fault.place == UPC_MOST_CONTRACTS, "the meters that are needed");
}

/* 4096 connections on a card, each with four contracts, and a cell on each. */
static void set_up_all(void)
{
	static const upc_shape shape = {UPC_NNI, 1, LINES, PORTS, 2};
	static const upc_contract cbr = {UPC_CBR1, 10, 0, 0, 0};
	uint8_t octets[8], *seen = (uint8_t *)room_of(LINES);
	upc_contract four[UPC_MOST_CONTRACTS];
	upc_card card = {0, 0};
	upc_answer answer;
	upc_id id;
	uint32_t k;

	memset(seen, 0, LINES);
	for (k = 0; k < UPC_MOST_CONTRACTS; k++)
		four[k] = cbr;
	put_return(octets, UPC_MOST_CONTRACTS);
	ask(upc_card_new(&shape, &card, &fault) == 0 && upc_card_load(&card, octets, sizeof octets, &id, &fault) == 0,
	    "a card of 4096 lines");
	for (k = 0; k < LINES; k++)
		ask(upc_card_setup(&card, (uint16_t)k, (uint16_t)(65535 - k), &id, four, UPC_MOST_CONTRACTS, &fault) == 0, "a connection");
	refused("one connection more", upc_card_setup(&card, 0, 0, &id, four, 1, &fault), UPC_DESK_NO_LINE);
	refused("one path more", upc_card_setup(&card, 4096, 0, &id, four, 1, &fault), UPC_LARGE_PATH);
	for (k = 0; k < LINES; k++) {
		uint32_t channel = 65535 - k, header = k << 20 | channel << 4;
		uint8_t cell[UPC_CELL_OCTETS] = {(uint8_t)(header >> 24), (uint8_t)(header >> 16), (uint8_t)(header >> 8), (uint8_t)header};

		ask(upc_card_arrive(&card, cell, sizeof cell, k, &answer, &fault) == 0, "a cell of a connection");
		ask(answer.verdict == UPC_PASS && answer.value == 4 && answer.number == 1 && answer.line < LINES && !seen[answer.line],
		    "a line of its own");
		seen[answer.line] = 1;
	}
	list_all(&card);
	upc_card_free(&card);
	free(seen);
	printf("%d connections\n", (int)LINES);
}

/* 65,536 cells in the journal of a connection on a card of the largest shape. */
static void fill_journal(void)
{
	static const upc_shape shape = {UPC_UNI, PROGRAMS, LINES, PORTS, JOURNAL};
	static const upc_contract cbr = {UPC_CBR1, 2, 0, 0, 0};
	upc_entry *room = (upc_entry *)room_of(JOURNAL * sizeof *room);
	uint8_t octets[8], cell[UPC_CELL_OCTETS] = {0x0f, 0xf0};
	upc_card card = {0, 0};
	upc_journal journal;
	upc_answer answer;
	size_t cells = 0;
	upc_id id;
	uint32_t k;

	put_return(octets, 1);
	ask(upc_card_new(&shape, &card, &fault) == 0 && upc_card_load(&card, octets, sizeof octets, &id, &fault) == 0 &&
	        upc_card_setup(&card, 255, 0, &id, &cbr, 1, &fault) == 0,
	    "a card of the largest journals");
	for (k = 0; k < JOURNAL; k++)
		ask(upc_card_arrive(&card, cell, sizeof cell, k, &answer, &fault) == 0 && answer.verdict == (k % 2 ? UPC_DISCARD : UPC_PASS),
		    "a cell of the journal");
	refused("one cell more", upc_card_arrive(&card, cell, sizeof cell, k, &answer, &fault), UPC_ARRIVE_JOURNAL_FULL);
	ask(upc_card_journal(&card, 255, 0, &cells, &fault) == 0 && cells == JOURNAL, "the number of cells");
	refused("a room that lacks one entry", upc_card_cut(&card, 255, 0, room, JOURNAL - 1, &journal, &fault), UPC_NO_ROOM);
	ask(fault.place == JOURNAL && upc_card_cut(&card, 255, 0, room, JOURNAL, &journal, &fault) == 0, "the cut");
	ask(journal.cells == JOURNAL && journal.after.passed == JOURNAL / 2 && journal.after.discarded == JOURNAL / 2, "its counts");
	for (k = 0; k < JOURNAL; k++)
		ask(room[k].moment == k && room[k].verdict == (k % 2 ? UPC_DISCARD : UPC_PASS), "an entry");
	ask(upc_card_arrive(&card, cell, sizeof cell, JOURNAL, &answer, &fault) == 0 && answer.number == JOURNAL / 2 + 1,
	    "the cell after the cut");
	upc_card_free(&card);
	free(room);
	printf("%d cells in a journal\n", (int)JOURNAL);
}

/* As many cells in one call as a journal has room for, and one more; a cell every 53 octets. */
static void judge_burst(void)
{
	static const upc_shape shape = {UPC_UNI, 1, 1, 1, JOURNAL};
	static const upc_contract vbr = {UPC_VBR3, 1, 0, 2, 0};
	enum { CELLS = JOURNAL + 1, STRIDE = 53 };
	uint8_t *cells = (uint8_t *)room_of(STRIDE * CELLS), octets[8];
	uint64_t *moments = (uint64_t *)room_of(CELLS * sizeof *moments);
	upc_answer *answers = (upc_answer *)room_of(CELLS * sizeof *answers);
	upc_card card = {0, 0};
	size_t done = 0;
	upc_id id;
	uint32_t k;

	put_return(octets, 1);
	ask(upc_card_new(&shape, &card, &fault) == 0 && upc_card_load(&card, octets, sizeof octets, &id, &fault) == 0 &&
	        upc_card_setup(&card, 255, 0, &id, &vbr, 1, &fault) == 0,
	    "a card for a burst");
	memset(cells, 0, STRIDE * CELLS);
	for (k = 0; k < CELLS; k++) {
		cells[STRIDE * k] = 0x0f;
		cells[STRIDE * k + 1] = 0xf0;
		moments[k] = k;
	}
	refused("one cell more in a burst",
	        upc_card_arrive_many(&card, cells, STRIDE * CELLS, STRIDE, moments, CELLS, answers, CELLS, &done, &fault),
	        UPC_ARRIVE_JOURNAL_FULL);
	ask(done == JOURNAL, "the cells of a burst");
	for (k = 0; k < JOURNAL; k++)
		ask(answers[k].verdict == (k % 2 ? UPC_TAG : UPC_PASS) && answers[k].moment == k && answers[k].number == k / 2 + 1 &&
		        cells[STRIDE * k + 3] == k % 2 && cells[STRIDE * k + 52] == 0,
		    "a cell of a burst");
	refused("one answer less",
	        upc_card_arrive_many(&card, cells, STRIDE * CELLS, STRIDE, moments, CELLS, answers, CELLS - 1, &done, &fault), UPC_NO_ROOM);
	ask(done == 0 && fault.place == CELLS, "the answers that are needed");
	upc_card_free(&card);
	free(cells);
	free(moments);
	free(answers);
	printf("%d cells in one call\n", (int)JOURNAL);
}

int main(void)
{
	assemble(65536);
	assemble(65537);
	assemble(SOURCE);
	run_longest();
	judge_largest();
	make_cards();
	load_all();
	set_up_all();
	fill_journal();
	judge_burst();
	return 0;
}
