/* The library's upc_card_arrive and upc_card_arrive_many on the traffic of bench/policing.rt.in: random cells among 256 connections
 * of two VBR.3 contracts each, named by a program of four instructions. Prints the least time a cell of many rounds, and how many
 * cells passed: of calls for a cell each, and of calls for as many cells as the name says. What Core::arrive takes, which they
 * call, bench/run prints. */
#include <stdio.h>
#include <string.h>
#include <time.h>
#include "upc.h"

enum { CONNECTIONS = 256, CELLS = 4096, JOURNAL = 4096, ROUNDS = 280, ROUNDS_A_CUT = 25 };

static uint8_t cells[CELLS][UPC_CELL_OCTETS], came[CELLS][UPC_CELL_OCTETS];
static uint64_t moments[CELLS];
static upc_answer answers[CELLS];

static uint64_t random_bits(void)
{
	static uint64_t seed = 88172645463325252u;
	seed ^= seed << 13;
	seed ^= seed >> 7;
	seed ^= seed << 17;
	return seed;
}

/* The cells of a round, at the user network interface: path 1, and a channel for each connection. */
static void make_cells(void)
{
	int k;

	for (k = 0; k < CELLS; k++) {
		unsigned channel = (unsigned)(random_bits() % CONNECTIONS);
		cells[k][1] = 0x10;
		cells[k][2] = (uint8_t)(channel >> 4);
		cells[k][3] = (uint8_t)((channel & 15) << 4 | (random_bits() & 15));
	}
}

/* A card with these connections. Returns 0, or the number of a fault. */
static uint32_t make_card(upc_card *card, upc_fault *fault)
{
	static const uint8_t program[] = {0x00, 0x30, 0, 0, 0, 0, 0, 3, 0x00, 0x45, 0, 1, 0, 0, 0, 8,
	                                  0x00, 0x06, 0, 0, 0, 0, 0, 1, 0x00, 0x06, 0, 0, 0, 0, 0, 2};
	const upc_shape shape = {UPC_UNI, 4, CONNECTIONS, 1, JOURNAL};
	const uint64_t gap = 3 * CONNECTIONS;
	const upc_contract contracts[] = {{UPC_VBR3, gap * 2 + 1, gap * 2, gap * 5 + 1, gap * 5},
	                                  {UPC_VBR3, gap * 2 + 2, gap * 3, gap * 6 + 1, gap * 2}};
	upc_id id;
	uint16_t channel;

	if (upc_card_new(&shape, card, fault) != 0 || upc_card_load(card, program, sizeof program, &id, fault) != 0)
		return fault->number;
	for (channel = 0; channel < CONNECTIONS; channel++)
		if (upc_card_setup(card, 1, channel, &id, contracts, 2, fault) != 0)
			return fault->number;
	return 0;
}

/* Judges the cells of a round from this moment on, each by a call. Returns 0 where a cell wasn't judged. */
static int judge_each(upc_card *card, uint64_t moment, unsigned long *passed)
{
	upc_answer answer;
	upc_fault fault;
	int k;

	for (k = 0; k < CELLS; k++) {
		if (upc_card_arrive(card, came[k], UPC_CELL_OCTETS, moment += 3, &answer, &fault) != 0)
			return 0;
		*passed += answer.verdict == UPC_PASS;
	}
	return 1;
}

/* The same with this many cells for each call. */
static int judge_bursts(upc_card *card, int burst, uint64_t moment, unsigned long *passed)
{
	upc_fault fault;
	size_t done;
	int k, of;

	for (k = 0; k < CELLS; k += burst) {
		for (of = 0; of < burst; of++)
			moments[of] = moment += 3;
		if (upc_card_arrive_many(card, came[k], sizeof came - (size_t)k * sizeof *came, sizeof *came, moments, (size_t)burst, answers,
		                         CELLS, &done, &fault) != 0)
			return 0;
		for (of = 0; of < burst; of++)
			*passed += answers[of].verdict == UPC_PASS;
	}
	return 1;
}

/* One round from this moment on: nanoseconds a cell, or -1 where a cell wasn't judged. */
static double measure(upc_card *card, int burst, uint64_t moment, unsigned long *passed)
{
	struct timespec begun, ended;
	int judged;

	memcpy(came, cells, sizeof cells);
	clock_gettime(CLOCK_MONOTONIC, &begun);
	judged = burst == 1 ? judge_each(card, moment, passed) : judge_bursts(card, burst, moment, passed);
	clock_gettime(CLOCK_MONOTONIC, &ended);
	if (!judged)
		return -1;
	return ((double)(ended.tv_sec - begun.tv_sec) * 1e9 + (double)(ended.tv_nsec - begun.tv_nsec)) / CELLS;
}

static uint32_t cut_all(upc_card *card, upc_fault *fault)
{
	static upc_entry room[JOURNAL];
	upc_journal journal;
	uint16_t channel;

	for (channel = 0; channel < CONNECTIONS; channel++)
		if (upc_card_cut(card, 1, channel, room, JOURNAL, &journal, fault) != 0)
			return fault->number;
	return 0;
}

/* Prints the least time of many rounds on a card of its own. Returns 0 where a call refused. */
static int print_least(const char *name, int burst)
{
	upc_card card = {0, 0};
	unsigned long passed = 0;
	double least = 1e9;
	upc_fault fault;
	int k, failed = make_card(&card, &fault) != 0;

	for (k = 0; k < ROUNDS && !failed; k++) {
		double it = measure(&card, burst, (uint64_t)k * 3 * CELLS, &passed);
		least = it < least ? it : least;
		failed = it < 0 || (k % ROUNDS_A_CUT == ROUNDS_A_CUT - 1 && cut_all(&card, &fault) != 0);
	}
	upc_card_free(&card);
	if (!failed)
		printf("%s %.2f ns a cell, %lu of %lu cells passed\n", name, least, passed, (unsigned long)ROUNDS * CELLS);
	return !failed;
}

int main(void)
{
	make_cells();
	return !(print_least("upc_card_arrive", 1) && print_least("upc_card_arrive_many:32", 32) &&
	         print_least("upc_card_arrive_many:4096", CELLS));
}
