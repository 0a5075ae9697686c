/* Makes each call fail in all its ways and prints the errors. Reports a call that wrote something although it failed. */
#include <stdio.h>
#include <string.h>
#include "upc.h"

static upc_fault fault;

/* Prints the error of a call, a result that isn't the error's, and a write although the call failed. */
static void report(const char *what, uint32_t result, const void *lent, const void *before, size_t size)
{
	printf("%s: kind %u number %u", what, (unsigned)fault.kind, (unsigned)fault.number);
	printf(" place %lu word %u code %04x", (unsigned long)fault.place, (unsigned)fault.word, (unsigned)fault.code);
	if (fault.column != 0)
		printf(" column %lu", (unsigned long)fault.column);
	printf(" %s", upc_strerror(&fault));
	if (result != 256 * fault.kind + fault.number)
		printf(", and it returned %u", (unsigned)result);
	if (result != 0 && memcmp(lent, before, size) != 0)
		printf(", and it wrote");
	printf("\n");
}

static void judge(const char *what, upc_contract contract, upc_levels levels, uint64_t moment)
{
	upc_levels before = levels;
	upc_excess excess = {7, 7};
	uint32_t verdict = 9, early = upc_excess_of(&contract, &levels, 0, moment, &excess, &fault);

	report(what, upc_judge(&contract, &levels, 0, moment, &verdict, &fault), &levels, &before, sizeof levels);
	if (fault.number != 0 && verdict != 9)
		printf("%s: it wrote a verdict\n", what);
	if (early != 256 * fault.kind + fault.number || (early != 0 && (excess.bucket != 7 || excess.ticks != 7)))
		printf("%s: upc_excess_of returned %u\n", what, (unsigned)early);
}

static void judge_all(void)
{
	const upc_contract cbr = {UPC_CBR1, 10, 5, 0, UPC_MOST_TICKS + 1}, vbr = {UPC_VBR1, 10, 5, 20, 7};
	const upc_levels opening = {0, 0}, last = {UPC_LAST_LEVEL, UPC_LAST_LEVEL}, late = {0, UPC_LAST_LEVEL + 1};
	upc_contract it = vbr;

	judge("cbr.1 whose second rate is none", cbr, opening, 0);
	judge("last moment and last levels", vbr, last, UPC_LAST_MOMENT);
	it.kind = 0;
	judge("kind 0", it, opening, 0);
	it.kind = 5;
	judge("kind 5", it, opening, 0);
	it = vbr, it.peak_increment = 0, it.sustained_limit = UPC_MOST_TICKS + 1;
	judge("bucket 1 without increment", it, opening, 0);
	it = vbr, it.peak_limit = UPC_MOST_TICKS + 1, it.sustained_increment = 0;
	judge("bucket 1 too large", it, opening, 0);
	it = vbr, it.sustained_increment = 0;
	judge("bucket 2 without increment", it, late, 0);
	it = vbr, it.sustained_increment = UPC_MOST_TICKS + 1;
	judge("bucket 2 too large", it, opening, 0);
	judge("late levels", vbr, late, UPC_LAST_MOMENT + 1);
	judge("late moment", vbr, opening, UPC_LAST_MOMENT + 1);
	report("contract", upc_contract_check(&vbr, &fault), "", "", 0);
	report("no contract", upc_contract_check(&it, &fault), "", "", 0);
}

static void burst(const char *what, uint64_t mbs, uint64_t sustained, uint64_t peak)
{
	uint64_t ticks = 7, before = 7;

	report(what, upc_burst_tolerance(mbs, sustained, peak, &ticks, &fault), &ticks, &before, sizeof ticks);
	if (fault.number == 0)
		printf("%s: %lu ticks\n", what, (unsigned long)ticks);
}

static void cell(const char *what, size_t length, uint32_t side)
{
	uint8_t octets[UPC_CELL_OCTETS + 1] = {0x12, 0x34, 0x56, 0x7a}, before[UPC_CELL_OCTETS + 1];
	upc_fields fields, unread;

	memcpy(before, octets, sizeof octets);
	memset(&fields, 0, sizeof fields);
	memset(&unread, 0, sizeof unread);
	report(what, upc_cell_fields(octets, length, side, &fields, &fault), &fields, &unread, sizeof fields);
	if (fault.number == 0)
		printf("%s: vpi %d vci %d gfc %d pti %d clp %d\n", what, fields.vpi, fields.vci, fields.gfc, fields.pti, fields.clp);
	report(what, upc_cell_tag(octets, length, &fault), octets, before, sizeof octets);
	if (fault.number == 0)
		printf("%s: %02x%02x%02x%02x\n", what, octets[0], octets[1], octets[2], octets[3]);
}

/* Checks and lists the octets of a hexadecimal text. */
static void program(const char *digits)
{
	uint8_t octets[64], room[64] = {0}, before[64] = {0};
	size_t length = strlen(digits) / 2, count = 0, k;
	unsigned octet;

	for (k = 0; k < length; k++) {
		sscanf(digits + 2 * k, "%2x", &octet);
		octets[k] = (uint8_t)octet;
	}
	report(digits, upc_check(octets, length, &fault), octets, octets, length);
	report(digits, upc_listing(octets, length, room, 4, &count, &fault), room, before, sizeof room);
}

static void source(const char *text, size_t room_length)
{
	uint8_t room[16] = {0}, before[16] = {0};
	size_t count = 9;

	report(text, upc_assemble((const uint8_t *)text, strlen(text), room, room_length, &count, &fault), room, before,
	     sizeof room);
	if (count != (fault.number ? 9 : 8))
		printf("%s: the count is %lu\n", text, (unsigned long)count);
}

static void rules(const char *what, const char *text, size_t room_length)
{
	uint8_t room[16] = {0}, before[16] = {0};
	size_t count = 9;

	report(what, upc_rules_compile((const uint8_t *)text, strlen(text), room, room_length, &count, &fault), room, before,
	     sizeof room);
	if (count != (fault.number ? 9 : 8))
		printf("%s: the count is %lu\n", what, (unsigned long)count);
}

/* Rules whose code is too long, and a test with too many comparisons. */
static void long_rules(void)
{
	static char text[1 << 16];
	size_t at, k;

	for (at = 0, k = 1; k <= 2100; k++)
		at += (size_t)sprintf(text + at, "word 4 = %u -> 1\n", (unsigned)k);
	rules("2100 rules", text, 16);
	at = (size_t)sprintf(text, "vci 1");
	for (k = 1; k < 4097; k++)
		at += (size_t)sprintf(text + at, ", %u", (unsigned)(2 * k));
	sprintf(text + at, " -> 1\n");
	rules("4097 numbers", text, 16);
}

/* A label that is too far for a branch, and a program that is too long. */
static void far_and_long(void)
{
	static char text[8 * 4097 + 1];
	static uint8_t octets[8 * 4097];
	size_t k;

	strcpy(text, "jeq #1, l\n");
	for (k = 0; k < 256; k++)
		strcat(text, "txa\n");
	strcat(text, "l: ret a\n");
	report("far label", upc_assemble((const uint8_t *)text, strlen(text), octets, sizeof octets, &k, &fault), text, text, 1);
	for (k = 0; k < 4097; k++)
		octets[8 * k + 1] = 0x16;
	report("4096 instructions", upc_check(octets, 8 * 4096, &fault), text, text, 1);
	report("4097 instructions", upc_check(octets, 8 * 4097, &fault), text, text, 1);
}

/* The errors of a upc_program: a run without a program, a second program, octets that aren't a cell. */
static void kept_program(void)
{
	static const uint8_t octets[] = {0, 6, 0, 0, 0, 0, 0, 7}, wrong[] = {0, 7, 0, 0, 0, 0, 0, 0};
	uint8_t cell[UPC_CELL_OCTETS] = {0};
	upc_program program = {0, 0};
	uint32_t value[2] = {1, 2}, before[2] = {1, 2};

	upc_program_free(&program);
	report("no program", upc_program_run(&program, cell, sizeof cell, &value[0], &value[1], &fault), value, before, sizeof value);
	report("none yet", upc_program_new(wrong, sizeof wrong, &program, &fault), "", "", 0);
	report("put in", upc_program_new(octets, sizeof octets, &program, &fault), "", "", 0);
	report("put in again", upc_program_new(octets, sizeof octets, &program, &fault), "", "", 0);
	report("no cell", upc_program_run(&program, cell, 51, &value[0], &value[1], &fault), value, before, sizeof value);
	report("run", upc_program_run(&program, cell, sizeof cell, &value[0], &value[1], &fault), value, value, 0);
	printf("run: value %u steps %u\n", (unsigned)value[0], (unsigned)value[1]);
	upc_program_free(&program);
	report("let go", upc_program_run(&program, cell, sizeof cell, &value[0], &value[1], &fault), value, value, 0);
}

/* Expects an error for a card with these numbers. */
static void no_card(const char *what, uint32_t side, uint64_t programs, uint64_t lines, uint64_t ports, uint64_t journal)
{
	upc_shape shape = {side, programs, lines, ports, journal};
	static upc_card card, none;

	report(what, upc_card_new(&shape, &card, &fault), &card, &none, sizeof card);
}

/* A cell on VPI/VCI 1/CHANNEL at a moment. */
static void arrive(const char *what, upc_card *card, uint8_t channel, size_t length, uint64_t moment)
{
	uint8_t octets[UPC_CELL_OCTETS] = {0, 0x10, 0, (uint8_t)(channel << 4)}, before[UPC_CELL_OCTETS];
	upc_answer answer;

	memcpy(before, octets, sizeof octets);
	report(what, upc_card_arrive(card, octets, length, moment, &answer, &fault), octets, before, sizeof octets);
	if (fault.number == 0)
		printf("%s: verdict %u value %u number %lu line %u\n", what, (unsigned)answer.verdict, (unsigned)answer.value,
		       (unsigned long)answer.number, (unsigned)answer.line);
}

static void set_up(const char *what, upc_card *card, uint16_t path, uint16_t channel, upc_id id, upc_contract it, size_t count)
{
	upc_contract all[5];
	size_t k;

	for (k = 0; k < 5; k++)
		all[k] = it;
	report(what, upc_card_setup(card, path, channel, &id, all, count, &fault), "", "", 0);
}

/* The desk of a card with one program and one line, whose journal holds two cells. */
static void card_desk(upc_card *card, upc_id id, upc_contract it)
{
	static const uint8_t octets[] = {0, 6, 0, 0, 0, 0, 0, 2}, wrong[] = {0, 7, 0, 0, 0, 0, 0, 0};
	upc_id other = {3, 1}, unread = {3, 1};
	upc_contract none = it;

	report("load no program", upc_card_load(card, wrong, sizeof wrong, &other, &fault), &other.generation, &unread.generation,
	     sizeof other.generation);
	report("load one more", upc_card_load(card, octets, sizeof octets, &other, &fault), &other.generation, &unread.generation,
	     sizeof other.generation);
	none.peak_increment = 0;
	set_up("five contracts", card, 1, 1, id, it, 5);
	set_up("five without an increment", card, 1, 1, id, none, 5);
	set_up("five on a large path", card, 256, 1, id, it, 5);
	set_up("five, and another program", card, 1, 1, other, it, 5);
	set_up("no contract's numbers", card, 1, 1, id, none, 1);
	set_up("no contract's numbers on a large path", card, 256, 1, id, none, 4);
	set_up("large path", card, 256, 1, id, it, 1);
	set_up("large path, another program", card, 256, 1, other, it, 0);
	set_up("another program", card, 1, 1, other, it, 1);
	set_up("no contracts", card, 1, 1, id, it, 0);
	set_up("connection", card, 1, 1, id, it, 1);
	set_up("connection again, another program", card, 1, 1, other, it, 1);
	set_up("connection again without contracts", card, 1, 1, id, it, 0);
	set_up("connection again", card, 1, 1, id, it, 1);
	set_up("one more connection without contracts", card, 1, 2, id, it, 0);
	set_up("one more connection", card, 1, 2, id, it, 1);
	report("retire a program in use", upc_card_retire(card, &id, &fault), "", "", 0);
	report("retire another", upc_card_retire(card, &other, &fault), "", "", 0);
	report("reload another", upc_card_reload(card, 1, 1, &other, &unread, &fault), "", "", 0);
	report("reload elsewhere", upc_card_reload(card, 1, 2, &id, &unread, &fault), "", "", 0);
	report("reload", upc_card_reload(card, 1, 1, &id, &unread, &fault), "", "", 0);
	printf("reload: the same program %d\n", unread.slot == id.slot && unread.generation == id.generation);
}

/* The room of a journal of two cells, and one entry more. */
static upc_entry room[3], room_before[3];

static void report_journal(const char *what, uint32_t number, const upc_journal *journal)
{
	size_t k;

	report(what, number, room, room_before, sizeof room);
	if (number != 0)
		return;
	printf("%s: %lu cells, refused %lu to %lu\n", what, (unsigned long)journal->cells, (unsigned long)journal->before.refused,
	       (unsigned long)journal->after.refused);
	for (k = 0; k < journal->cells; k++)
		printf("%s: moment %lu program %u/%u value %u clp %u verdict %u\n", what, (unsigned long)room[k].moment,
		       (unsigned)room[k].program.slot, (unsigned)room[k].program.generation, (unsigned)room[k].value,
		       (unsigned)room[k].clp, (unsigned)room[k].verdict);
	if (memcmp(room + k, room_before + k, sizeof room - k * sizeof *room) != 0)
		printf("%s: it wrote after the entries\n", what);
	memcpy(room, room_before, sizeof room);
}

/* Up to three cells on VPI/VCI 1/1 in one call, all at one moment. */
static void arrive_many(const char *what, upc_card *card, size_t length, size_t stride, uint64_t moment, size_t count, size_t room)
{
	uint8_t octets[3 * UPC_CELL_OCTETS] = {0}, before[3 * UPC_CELL_OCTETS];
	const uint64_t moments[] = {moment, moment, moment};
	upc_answer answers[3], unread[3];
	size_t done = 77, k;

	for (k = 0; k < 3; k++)
		octets[UPC_CELL_OCTETS * k + 1] = octets[UPC_CELL_OCTETS * k + 3] = 0x10;
	memcpy(before, octets, sizeof octets);
	memset(answers, 7, sizeof answers);
	memset(unread, 7, sizeof unread);
	report(what, upc_card_arrive_many(card, octets, length, stride, moments, count, answers, room, &done, &fault), octets, before,
	     sizeof octets);
	printf("%s: %lu judged\n", what, (unsigned long)done);
	for (k = 0; k < done && k < 3; k++)
		printf("%s: moment %lu verdict %u value %u number %lu line %u\n", what, (unsigned long)answers[k].moment,
		       (unsigned)answers[k].verdict, (unsigned)answers[k].value, (unsigned long)answers[k].number,
		       (unsigned)answers[k].line);
	if (memcmp(answers + k, unread + k, sizeof answers - k * sizeof *answers) != 0)
		printf("%s: it wrote after the answers\n", what);
}

/* Several cells in one call, on a connection whose empty journal holds two. */
static void card_batches(upc_card *card)
{
	upc_journal journal;

	arrive_many("three cells, two answers", card, 156, 52, 9, 3, 2);
	arrive_many("no cells", card, 0, 0, 9, 0, 0);
	arrive_many("a short cell after one", card, 103, 52, 9, 2, 3);
	arrive_many("a cell far beyond the octets", card, 156, (size_t)-1, 9, 2, 3);
	arrive_many("a cell more", card, 156, 52, 9, 1, 1);
	report_journal("cut", upc_card_cut(card, 1, 1, room, 3, &journal, &fault), &journal);
	arrive_many("three cells", card, 156, 52, 9, 3, 3);
	report_journal("cut", upc_card_cut(card, 1, 1, room, 3, &journal, &fault), &journal);
	arrive_many("one cell twice", card, 52, 0, 9, 2, 2);
	report_journal("cut", upc_card_cut(card, 1, 1, room, 3, &journal, &fault), &journal);
	arrive_many("late cells", card, 156, 52, UPC_LAST_MOMENT + 1, 2, 2);
	arrive_many("earlier cells", card, 156, 52, 8, 2, 2);
	arrive_many("a cell between others", card, 155, 51, 9, 2, 2);
}

/* The size that a card reports. */
static void report_shape(const char *what, upc_card *card)
{
	upc_shape shape, unread;

	memset(&shape, 7, sizeof shape);
	memset(&unread, 7, sizeof unread);
	report(what, upc_card_shape(card, &shape, &fault), &shape, &unread, sizeof shape);
	if (fault.number == 0)
		printf("%s: side %u, %lu programs, %lu lines, %lu ports, %lu cells\n", what, (unsigned)shape.side,
		       (unsigned long)shape.programs, (unsigned long)shape.lines, (unsigned long)shape.ports, (unsigned long)shape.journal);
}

/* What a card reports of a connection without a step. */
static void inspect(const char *what, upc_card *card, uint16_t path, uint16_t channel)
{
	upc_counts counts = {7, 7, 7, 7}, unread = counts;
	size_t cells = 77, unasked = 77;

	report(what, upc_card_journal(card, path, channel, &cells, &fault), &cells, &unasked, sizeof cells);
	report(what, upc_card_counts(card, path, channel, &counts, &fault), &counts, &unread, sizeof counts);
	if (fault.number == 0)
		printf("%s: %lu cells, refused %lu\n", what, (unsigned long)cells, (unsigned long)counts.refused);
}

/* The state of a connection, and the one after it. */
static void read_state(const char *what, upc_card *card, uint16_t path, uint16_t channel, size_t length)
{
	upc_meter meters[2], unread[2];
	upc_cursor at = {1, path, channel}, before = at;
	upc_state state;

	memset(meters, 7, sizeof meters);
	memset(unread, 7, sizeof unread);
	report(what, upc_card_state(card, path, channel, meters, length, &state, &fault), meters, unread, sizeof meters);
	if (fault.number == 0)
		printf("%s: setup %lu last %lu cells %lu contracts %lu refused %lu program %u/%u line %u: kind %u %lu/%lu due %lu\n", what,
		       (unsigned long)state.incarnation, (unsigned long)state.last, (unsigned long)state.cells,
		       (unsigned long)state.contracts, (unsigned long)state.counts.refused, (unsigned)state.program.slot,
		       (unsigned)state.program.generation, (unsigned)state.line, (unsigned)meters[0].contract.kind,
		       (unsigned long)meters[0].contract.peak_increment, (unsigned long)meters[0].contract.peak_limit,
		       (unsigned long)meters[0].levels.first);
	if (memcmp(meters + 1, unread + 1, sizeof *meters) != 0)
		printf("%s: it wrote after the meters\n", what);
	report(what, upc_card_next(card, &at, &fault), &at, &before, sizeof at);
	if (fault.number == 0)
		printf("%s: then %u/%u\n", what, (unsigned)at.path, (unsigned)at.channel);
}

/* A null pointer: the fault says so, only the result does, or it may be null. */
static void null_pointers(void)
{
	const upc_contract cbr = {UPC_CBR1, 10, 5, 0, 0};

	report("null contract", upc_contract_check(NULL, &fault), "", "", 0);
	report("null octets", upc_check(NULL, 8, &fault), "", "", 0);
	report("no octets at null", upc_check(NULL, 0, &fault), "", "", 0);
	printf("null contract and no fault: %u\n", (unsigned)upc_contract_check(NULL, NULL));
	printf("contract and no fault: %u\n", (unsigned)upc_contract_check(&cbr, NULL));
	upc_program_free(NULL);
	upc_card_free(NULL);
}

/* The errors of a upc_card, in the order of a card's life. The program names contract 2, but there is only one. */
static void kept_card(void)
{
	static const uint8_t octets[] = {0, 6, 0, 0, 0, 0, 0, 2};
	const upc_contract cbr = {UPC_CBR1, 10, 5, 0, 0}, zero = {0, 0, 0, 0, 0};
	const upc_shape shape = {UPC_UNI, 1, 1, 3, 2};
	upc_card card = {0, 0};
	upc_journal journal;
	upc_id id = {0, 0};

	no_card("side 4", 4, 0, 1, 1, 1);
	no_card("no programs", UPC_UNI, 0, 0, 1, 1);
	no_card("4097 lines", UPC_NNI, 1024, 4097, 17, 1);
	no_card("17 ports", UPC_UNI, 1, 4096, 17, 0);
	no_card("large journal", UPC_UNI, 1, 1, 16, 65537);
	upc_card_free(&card);
	memset(room_before, 0xa5, sizeof room_before);
	memcpy(room, room_before, sizeof room);
	arrive("no card", &card, 1, 52, 0);
	arrive_many("several on no card", &card, 156, 52, 0, 3, 3);
	arrive_many("several and no card, the first short", &card, 51, 0, 0, 3, 3);
	arrive_many("none on no card", &card, 156, 52, 0, 0, 3);
	report_shape("the size of no card", &card);
	inspect("inspect no card", &card, 1, 1);
	read_state("state of no card", &card, 1, 1, 2);
	report_journal("cut no card", upc_card_cut(&card, 1, 1, room, 3, &journal, &fault), &journal);
	set_up("set up on no card", &card, 1, 1, id, cbr, 1);
	set_up("five on no card", &card, 1, 1, id, cbr, 5);
	set_up("no contract's numbers on no card", &card, 256, 1, id, zero, 1);
	report("new card", upc_card_new(&shape, &card, &fault), "", "", 0);
	report("new card again", upc_card_new(&shape, &card, &fault), "", "", 0);
	report_shape("size", &card);
	report("load", upc_card_load(&card, octets, sizeof octets, &id, &fault), "", "", 0);
	card_desk(&card, id, cbr);
	arrive("short cell", &card, 1, 51, 0);
	arrive("cell elsewhere", &card, 2, 52, 0);
	arrive("late cell", &card, 1, 52, UPC_LAST_MOMENT + 1);
	arrive("first cell", &card, 1, 52, 9);
	arrive("earlier cell", &card, 1, 52, 8);
	arrive("second cell", &card, 1, 52, 9);
	arrive("third cell", &card, 1, 52, 9);
	inspect("inspect elsewhere", &card, 1, 2);
	inspect("inspect a large path", &card, 256, 1);
	inspect("inspect", &card, 1, 1);
	read_state("state elsewhere", &card, 1, 0, 0);
	read_state("state on a large path", &card, 256, 1, 0);
	read_state("state into none", &card, 1, 1, 0);
	read_state("state", &card, 1, 1, 1);
	report_journal("cut elsewhere", upc_card_cut(&card, 1, 2, room, 0, &journal, &fault), &journal);
	report_journal("cut into one entry", upc_card_cut(&card, 1, 1, room, 1, &journal, &fault), &journal);
	report_journal("release into none", upc_card_release(&card, 1, 1, room, 0, &journal, &fault), &journal);
	report_journal("cut", upc_card_cut(&card, 1, 1, room, 2, &journal, &fault), &journal);
	report_journal("cut an empty journal", upc_card_cut(&card, 1, 1, room, 0, &journal, &fault), &journal);
	arrive("cell after the cut", &card, 1, 52, 9);
	report_journal("cut", upc_card_cut(&card, 1, 1, room, 2, &journal, &fault), &journal);
	card_batches(&card);
	report_journal("release on a large path", upc_card_release(&card, 256, 1, room, 3, &journal, &fault), &journal);
	report_journal("release", upc_card_release(&card, 1, 1, room, 3, &journal, &fault), &journal);
	report("retire", upc_card_retire(&card, &id, &fault), "", "", 0);
	upc_card_free(&card);
	arrive("card let go", &card, 1, 52, 0);
}

int main(void)
{
	static const char *const sources[] = {"ret #1", "ret", "ret #8x", "l:l:ret #1", "l:ret #1\nl:ret #2", "ja l", "l:ja l", "l:"};
	static const char *const programs[] = {"",         "00",       "0006000000000001",
	                                       "0067000000000000", "0060000000000010", "0034000000000000",
	                                       "0064000000000020", "0005000000000001", "0007000000000000",
	                                       "00610000000000030016000000000000"};
	static const char *const texts[] = {"otherwise -> 7", "vpi", "vpi 1x -> 1", "vci 5..4 -> 1", "octet 52 = 1 -> 1",
	                                    "otherwise -> 1\nany -> 1", "any {\n}\n}", "gold -> 1",
	                                    "contract gold = 1\ndefine gold = 2",
	                                    "((((((((((((((((((((((((((((((((((((((((((((((((((((((((((((((((("};
	size_t k;

	printf("version %u of the library, %d of the header\n", (unsigned)upc_version(), UPC_VERSION);
	judge_all();
	burst("no cells", 0, 20, 10);
	burst("slower peak", 1, 10, 20);
	burst("large tolerance", 3, UPC_MOST_TICKS, 1);
	burst("burst of three", 3, 20, 10);
	cell("octets", 52, UPC_UNI);
	cell("octets between nodes", 52, UPC_NNI);
	cell("51 octets", 51, UPC_UNI);
	cell("53 octets", 53, 4);
	cell("octets on a path", 52, UPC_UNI_PATHS);
	cell("octets on a path between nodes", 52, UPC_NNI_PATHS);
	cell("side 4", 52, 4);
	for (k = 0; k < sizeof programs / sizeof *programs; k++)
		program(programs[k]);
	for (k = 0; k < sizeof sources / sizeof *sources; k++)
		source(sources[k], 8);
	source("ret #1", 7);
	for (k = 0; k < sizeof texts / sizeof *texts; k++)
		rules(texts[k], texts[k], 8);
	rules("otherwise -> 7, in seven octets", "otherwise -> 7", 7);
	long_rules();
	far_and_long();
	null_pointers();
	kept_program();
	kept_card();
	return 0;
}
