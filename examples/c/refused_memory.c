/* Calls each function that allocates while malloc and realloc refuse the first request, then the second, and so on. Each such
 * call must return UPC_NO_MEMORY and leave its buffer unchanged. Linked with --wrap=malloc,--wrap=realloc. */
#include <stdio.h>
#include <stdlib.h>
#include <string.h>
#include "upc.h"

#ifdef __cplusplus
extern "C" {
#endif
void *__real_malloc(size_t size);
void *__real_realloc(void *block, size_t size);
void *__wrap_malloc(size_t size);
void *__wrap_realloc(void *block, size_t size);
#ifdef __cplusplus
}
#endif

/* The number of the request to refuse, from 1 (0: none), and the number of requests so far. */
static unsigned long refused, requests;

void *__wrap_malloc(size_t size)
{
	return ++requests == refused ? NULL : __real_malloc(size);
}

void *__wrap_realloc(void *block, size_t size)
{
	return ++requests == refused ? NULL : __real_realloc(block, size);
}

static const char source[] = "ldh [2]\nand #14\njge #8, oam, data\ndata: ret #1\noam: ret #2\n";
static uint8_t program[64], room[256];
static size_t octets, count;

static uint32_t assemble(upc_fault *fault)
{
	return upc_assemble((const uint8_t *)source, sizeof source - 1, room, sizeof room, &count, fault);
}

static const char rules[] =
	"vpi 1 and vci 32..127, 5 {\n  oam or clp 1 -> 2\n  1/32 or vci != 33, 40 -> 1\n}\notherwise -> 3\n";

static uint32_t compile_rules(upc_fault *fault)
{
	return upc_rules_compile((const uint8_t *)rules, sizeof rules - 1, room, sizeof room, &count, fault);
}

static uint32_t check(upc_fault *fault)
{
	return upc_check(program, octets, fault);
}

static uint32_t list(upc_fault *fault)
{
	return upc_listing(program, octets, room, sizeof room, &count, fault);
}

/* Checks a program and frees it. */
static uint32_t put_in(upc_fault *fault)
{
	upc_program kept = {0, 0};
	uint32_t number = upc_program_new(program, octets, &kept, fault);

	upc_program_free(&kept);
	return number;
}

static const upc_shape shape = {UPC_UNI, 2, 2, 1, 4};
static const upc_contract contract = {UPC_CBR1, 5, 0, 0, 0};
static upc_card card;
static upc_id id;

/* Makes a card and frees it. */
static uint32_t make_card(upc_fault *fault)
{
	upc_card made = {0, 0};
	uint32_t number = upc_card_new(&shape, &made, fault);

	upc_card_free(&made);
	return number;
}

/* Loads a program into the card and retires it. */
static uint32_t load(upc_fault *fault)
{
	upc_id other = {7, 7};
	upc_fault later;
	uint32_t number = upc_card_load(&card, program, octets, &other, fault);

	if (number == 0 && upc_card_retire(&card, &other, &later) != 0)
		return 99;
	return number == 0 || (other.slot == 7 && other.generation == 7) ? number : 99;
}

/* Sets up a connection, judges a cell on it, and releases it. */
static uint32_t set_up(upc_fault *fault)
{
	uint8_t cell[UPC_CELL_OCTETS] = {0, 0x10, 0x06, 0x40};
	upc_entry entry;
	upc_answer answer;
	upc_journal journal;
	upc_fault later;
	uint32_t number = upc_card_setup(&card, 1, 100, &id, &contract, 1, fault);

	if (number != 0)
		return number;
	if (upc_card_arrive(&card, cell, sizeof cell, 0, &answer, &later) != 0)
		return 99;
	return upc_card_release(&card, 1, 100, &entry, 1, &journal, &later) == 0 && journal.cells == 1 ? 0 : 99;
}

/* Has a cell judged on a connection and empties its journal. If that is refused, the cell is still there. */
static uint32_t cut(upc_fault *fault)
{
	uint8_t cell[UPC_CELL_OCTETS] = {0, 0x10, 0x06, 0x50};
	const upc_entry unwritten = {7, {7, 7}, 7, 7, 7};
	upc_entry entry = unwritten;
	upc_answer answer;
	upc_journal journal;
	upc_fault later;
	size_t cells = 0;
	uint32_t number;

	if (upc_card_journal(&card, 1, 101, &cells, &later) != 0 ||
	    (cells == 0 && upc_card_arrive(&card, cell, sizeof cell, 0, &answer, &later) != 0))
		return 99;
	number = upc_card_cut(&card, 1, 101, &entry, 1, &journal, fault);
	if (upc_card_journal(&card, 1, 101, &cells, &later) != 0 || cells != (number != 0))
		return 99;
	return number == 0 || (entry.moment == 7 && entry.verdict == 7) ? number : 99;
}

/* Makes the calls that don't allocate: the number of cells of a journal, the counts of its line, and cells that arrive. */
static uint32_t inspect(upc_fault *fault)
{
	uint8_t two[2][UPC_CELL_OCTETS] = {{0, 0x10, 0x06, 0x50}, {0, 0x10, 0x06, 0x50}};
	const uint64_t moments[] = {0, 1};
	upc_answer answers[2];
	upc_counts counts;
	size_t cells = 7, done = 7;
	uint32_t number = upc_card_journal(&card, 1, 101, &cells, fault);

	if (number != 0 || cells != 0 || requests != 0)
		return 99;
	number = upc_card_counts(&card, 1, 101, &counts, fault);
	if (number != 0 || counts.passed < 1 || requests != 0)
		return 99;
	number = upc_card_arrive_many(&card, two[0], sizeof two, sizeof *two, moments, 2, answers, 2, &done, fault);
	return number == 0 && done == 2 && requests == 0 ? 0 : 99;
}

/* Makes the call with each request refused in turn, until none is. Returns whether each result was right. */
static int try_call(const char *name, uint32_t (*call)(upc_fault *))
{
	unsigned long k;

	for (k = 1;; k++) {
		upc_fault fault;
		size_t at;
		uint32_t number;

		memset(room, 0xa5, sizeof room);
		count = 77;
		requests = 0;
		refused = k;
		number = call(&fault);
		refused = 0;
		if (number == 0 && requests < k && k > 1) {
			printf("%s: each of its requests was refused in turn\n", name);
			return 1;
		}
		if (number != UPC_NO_MEMORY || fault.kind != UPC_CALL || count != 77)
			return 0;
		for (at = 0; at < sizeof room; at++)
			if (room[at] != 0xa5)
				return 0;
	}
}

int main(void)
{
	upc_fault fault;
	int failed;

	if (upc_assemble((const uint8_t *)source, sizeof source - 1, program, sizeof program, &octets, &fault) != 0)
		return 1;
	if (upc_card_new(&shape, &card, &fault) != 0 || upc_card_load(&card, program, octets, &id, &fault) != 0 ||
	    upc_card_setup(&card, 1, 101, &id, &contract, 1, &fault) != 0)
		return 1;
	failed = !(try_call("upc_assemble", assemble) && try_call("upc_check", check) && try_call("upc_listing", list) &&
	           try_call("upc_rules_compile", compile_rules) &&
	           try_call("upc_program_new", put_in) && try_call("upc_card_new", make_card) && try_call("upc_card_load", load) &&
	           try_call("upc_card_setup", set_up) && try_call("upc_card_cut", cut));
	requests = 0;
	failed = failed || inspect(&fault) != 0;
	upc_card_free(&card);
	return failed;
}
