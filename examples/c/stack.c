/* Measures the stack that each call takes: makes it on a thread whose stack was filled with a pattern, and looks how far below
 * the caller's frame the pattern is gone. With an argument it prints the octets of each call, of which some belong to the end
 * of a thread (those of "nothing"); otherwise only whether all take at most UPC_STACK, and upc_rules_compile at most
 * UPC_RULES_STACK. Its inputs are large, and some make a call fail late. */
#define _POSIX_C_SOURCE 200809L
#include <pthread.h>
#include <stdio.h>
#include <stdlib.h>
#include <string.h>
#include "upc.h"

enum { AREA = UPC_RULES_STACK + (1 << 20), FILL = 0xa5, INSTRUCTIONS = 4096, TEXT = 1 << 17 };

static uint8_t program[8 * INSTRUCTIONS], text[TEXT], room[TEXT], cell[UPC_CELL_OCTETS];
static const upc_shape shape = {UPC_UNI, 1024, 4096, 16, 1024};
static const upc_contract contracts[UPC_MOST_CONTRACTS] = {
	{UPC_VBR3, 10, 5, 20, 7}, {UPC_VBR2, 10, 5, 20, 7}, {UPC_VBR1, 10, 5, 20, 7}, {UPC_CBR1, 10, 5, 0, 0}};
static size_t length, count;
static upc_program held;
static upc_card card;
static upc_entry entries[1024];
static upc_fault fault;
static upc_id id;
static uint32_t number;

static void nothing(void) {}

static void contract_check(void) { number = upc_contract_check(contracts, &fault); }

static void judge(void)
{
	static upc_levels levels;
	uint32_t verdict;

	number = upc_judge(contracts, &levels, 0, 9, &verdict, &fault);
}

static void excess(void)
{
	const upc_levels levels = {20, 20};
	upc_excess it;

	number = upc_excess_of(contracts, &levels, 0, 9, &it, &fault);
}

static void tolerance(void)
{
	uint64_t ticks;

	number = upc_burst_tolerance(100, 20, 10, &ticks, &fault);
}

static void fields(void)
{
	upc_fields it;

	number = upc_cell_fields(cell, sizeof cell, UPC_NNI, &it, &fault);
}

static void tag(void) { number = upc_cell_tag(cell, sizeof cell, &fault); }

static void check(void) { number = upc_check(program, sizeof program, &fault); }

static void check_unknown(void) { number = upc_check(text, 8 * INSTRUCTIONS, &fault); }

static void list(void) { number = upc_listing(program, sizeof program, text, sizeof text, &length, &fault); }

static void assemble(void) { number = upc_assemble(text, length, room, sizeof room, &count, &fault); }

static void assemble_program(void) { number = upc_assemble(program, sizeof program, room, sizeof room, &count, &fault); }

/* A test of as many comparisons as a test may have, whose code is too long in the end. */
static void compile_rules(void)
{
	static char rules[TEXT];
	size_t at = 0, k;

	for (k = 0; k < 4096; k++)
		at += (size_t)sprintf(rules + at, "%sword %u = %u", k ? " or " : "", (unsigned)(k % 48), (unsigned)k);
	at += (size_t)sprintf(rules + at, " -> 1\n");
	number = upc_rules_compile((const uint8_t *)rules, at, room, sizeof room, &count, &fault);
}

/* A chain of as many `and`s as a test may have. */
static void compile_chain(void)
{
	static char rules[TEXT];
	size_t at = 0, k;

	for (k = 0; k < 4096; k++)
		at += (size_t)sprintf(rules + at, "%sany", k ? " and " : "");
	at += (size_t)sprintf(rules + at, " -> 1\n");
	number = upc_rules_compile((const uint8_t *)rules, at, room, sizeof room, &count, &fault);
}

/* A test of 64 tests in each other: as many parentheses may be open at once. In each there are an `or`, an `and` and a `not`. */
static void compile_nested(void)
{
	static char rules[TEXT];
	size_t at = 0, k;

	for (k = 0; k < 64; k++)
		at += (size_t)sprintf(rules + at, "clp 1 or vpi 3 and not (");
	at += (size_t)sprintf(rules + at, "any");
	for (k = 0; k < 64; k++)
		at += (size_t)sprintf(rules + at, " and vpi 3 or clp 0)");
	at += (size_t)sprintf(rules + at, " -> 1\n");
	number = upc_rules_compile((const uint8_t *)rules, at, room, sizeof room, &count, &fault);
}

static void new_program(void) { number = upc_program_new(program, sizeof program, &held, &fault); }

static void run_program(void)
{
	uint32_t value, steps;

	number = upc_program_run(&held, cell, sizeof cell, &value, &steps, &fault);
}

static void free_program(void) { upc_program_free(&held); }

static void new_card(void) { number = upc_card_new(&shape, &card, &fault); }

static void get_shape(void)
{
	upc_shape it;

	number = upc_card_shape(&card, &it, &fault);
}

static void load(void) { number = upc_card_load(&card, program, sizeof program, &id, &fault); }

static void load_unknown(void)
{
	upc_id other;

	number = upc_card_load(&card, text, 8 * INSTRUCTIONS, &other, &fault);
}

static void set_up(void) { number = upc_card_setup(&card, 1, 100, &id, contracts, UPC_MOST_CONTRACTS, &fault); }

static void retire(void) { number = upc_card_retire(&card, &id, &fault); }

static void reload(void)
{
	upc_id earlier;

	number = upc_card_reload(&card, 1, 100, &id, &earlier, &fault);
}

static void arrive(void)
{
	upc_answer answer;
	uint8_t it[UPC_CELL_OCTETS] = {0, 0x10, 0x06, 0x40};

	number = upc_card_arrive(&card, it, sizeof it, 9, &answer, &fault);
}

static void arrive_many(void)
{
	uint8_t cells[2][UPC_CELL_OCTETS] = {{0, 0x10, 0x06, 0x40}, {0, 0x10, 0x06, 0x40}};
	const uint64_t moments[] = {9, 10};
	upc_answer answers[2];
	size_t done;

	number = upc_card_arrive_many(&card, cells[0], sizeof cells, sizeof *cells, moments, 2, answers, 2, &done, &fault);
}

static void journal(void)
{
	size_t cells;

	number = upc_card_journal(&card, 1, 100, &cells, &fault);
}

static void counts(void)
{
	upc_counts it;

	number = upc_card_counts(&card, 1, 100, &it, &fault);
}

static void state(void)
{
	upc_meter meters[UPC_MOST_CONTRACTS];
	upc_state it;

	number = upc_card_state(&card, 1, 100, meters, UPC_MOST_CONTRACTS, &it, &fault);
}

static void next(void)
{
	upc_cursor it = {0, 0, 0};

	number = upc_card_next(&card, &it, &fault);
}

static void cut(void)
{
	upc_journal it;

	number = upc_card_cut(&card, 1, 100, entries, 1024, &it, &fault);
}

static void release(void)
{
	upc_journal it;

	number = upc_card_release(&card, 1, 100, entries, 1024, &it, &fault);
}

static void free_card(void) { upc_card_free(&card); }

typedef struct entry {
	const char *name;
	void (*call)(void);
} entry;

/* Where the stack of the call begins, at most. */
static uint8_t *top;

static void *start(void *given)
{
	uint8_t here;

	top = (uint8_t *)((uintptr_t)&here + 64);
	((entry *)given)->call();
	return NULL;
}

/* The octets of stack that were written below the frame of the caller. */
static size_t taken(entry *one)
{
	pthread_attr_t attributes;
	pthread_t thread;
	uint8_t *area;
	size_t untouched = 0;

	if (posix_memalign((void **)&area, 65536, AREA) != 0)
		exit(1);
	memset(area, FILL, AREA);
	if (pthread_attr_init(&attributes) != 0 || pthread_attr_setstack(&attributes, area, AREA) != 0 ||
	    pthread_create(&thread, &attributes, start, one) != 0 || pthread_join(thread, NULL) != 0)
		exit(1);
	pthread_attr_destroy(&attributes);
	while (untouched < AREA && area[untouched] == FILL)
		untouched++;
	untouched = (size_t)(top - area) - untouched;
	free(area);
	return untouched;
}

int main(int words, char **arguments)
{
	entry calls[] = {{"nothing", nothing}, {"upc_contract_check", contract_check}, {"upc_judge", judge}, {"upc_excess_of", excess},
	                 {"upc_burst_tolerance", tolerance},
	                 {"upc_cell_fields", fields}, {"upc_cell_tag", tag}, {"upc_check", check},
	                 {"upc_listing", list}, {"upc_assemble", assemble}, {"upc_assemble, no source", assemble_program},
	                 {"upc_rules_compile", compile_rules}, {"upc_rules_compile, a chain", compile_chain},
	                 {"upc_rules_compile, nested", compile_nested},
	                 {"upc_check, no program", check_unknown}, {"upc_program_new", new_program},
	                 {"upc_program_run", run_program}, {"upc_program_free", free_program}, {"upc_card_new", new_card}, {"upc_card_shape", get_shape},
	                 {"upc_card_load", load}, {"upc_card_load, no program", load_unknown}, {"upc_card_setup", set_up},
	                 {"upc_card_arrive", arrive}, {"upc_card_arrive_many", arrive_many}, {"upc_card_journal", journal}, {"upc_card_counts", counts},
	                 {"upc_card_state", state}, {"upc_card_next", next},
	                 {"upc_card_cut", cut}, {"upc_card_arrive", arrive}, {"upc_card_reload", reload},
	                 {"upc_card_release", release}, {"upc_card_retire", retire}, {"upc_card_free", free_card}};
	size_t most = 0, rules_most = 0, k, it;

	/* The first half jumps over one instruction each, so that the listing has labels. */
	for (k = 0; k < INSTRUCTIONS; k++) {
		program[8 * k + 1] = k < INSTRUCTIONS / 2 ? 0x15 : 0x04;
		program[8 * k + 2] = k < INSTRUCTIONS / 2;
		program[8 * k + 7] = 1;
	}
	program[8 * INSTRUCTIONS - 7] = 0x16;
	for (k = 0; k < sizeof calls / sizeof *calls; k++) {
		it = taken(&calls[k]);
		if (words > 1)
			printf("%6lu %s: %u\n", (unsigned long)it, calls[k].name, (unsigned)number);
		if (calls[k].call == compile_rules || calls[k].call == compile_chain || calls[k].call == compile_nested)
			rules_most = it > rules_most ? it : rules_most;
		else
			most = it > most ? it : most;
	}
	printf("each call takes at most UPC_STACK octets of stack: %d\n", most <= UPC_STACK);
	printf("upc_rules_compile takes at most UPC_RULES_STACK: %d\n", rules_most <= UPC_RULES_STACK);
	return most > UPC_STACK || rules_most > UPC_RULES_STACK || arguments == NULL;
}
