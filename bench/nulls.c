/* What the layer that refuses null pointers costs: three calls of the library, each beside the proved call that it makes, in turns.
 * Prints the least time a call of many rounds. */
#include <stdio.h>
#include <string.h>
#include <time.h>
#include "upc.h"

enum { CALLS = 1 << 14, ROUNDS = 400 };

uint32_t upc_proved_judge(const upc_contract *, upc_levels *, uint32_t, uint64_t, uint32_t *, upc_fault *);
uint32_t upc_proved_program_run(upc_program *, const uint8_t *, size_t, uint32_t *, uint32_t *, upc_fault *);
uint32_t upc_proved_card_arrive(upc_card *, uint8_t *, size_t, uint64_t, upc_answer *, upc_fault *);

static upc_program program;
static upc_card card;
static upc_fault fault;
static uint64_t sum, moment;
static uint8_t cell[UPC_CELL_OCTETS] = {0, 0x10, 0x06, 0x40};

static uint64_t now(void)
{
	struct timespec it;

	clock_gettime(CLOCK_MONOTONIC, &it);
	return (uint64_t)it.tv_sec * 1000000000u + (uint64_t)it.tv_nsec;
}

#define MEASURED(name, call)                                  \
	static uint64_t name(void)                            \
	{                                                     \
		uint64_t begun = now();                       \
		int k;                                        \
                                                              \
		for (k = 0; k < CALLS; k++) {                 \
			if ((call) != 0)                      \
				return ~(uint64_t)0;          \
			sum += (uint64_t)(value + steps);     \
		}                                             \
		return now() - begun;                         \
	}

static const upc_contract contract = {UPC_VBR3, 100, 50, 400, 2750};
static upc_levels levels;
static upc_answer answer;
static uint32_t value, steps;

MEASURED(judge, upc_judge(&contract, &levels, (uint32_t)k & 1, moment += 3, &value, &fault))
MEASURED(proved_judge, upc_proved_judge(&contract, &levels, (uint32_t)k & 1, moment += 3, &value, &fault))
MEASURED(run, upc_program_run(&program, cell, sizeof cell, &value, &steps, &fault))
MEASURED(proved_run, upc_proved_program_run(&program, cell, sizeof cell, &value, &steps, &fault))
MEASURED(arrive, upc_card_arrive(&card, cell, sizeof cell, moment += 3, &answer, &fault))
MEASURED(proved_arrive, upc_proved_card_arrive(&card, cell, sizeof cell, moment += 3, &answer, &fault))

/* Measures both in turns, and prints the least time of each. */
static int compare(const char *name, uint64_t (*call)(void), uint64_t (*proved)(void), int is_card)
{
	static upc_entry room[65536];
	uint64_t least = ~(uint64_t)0, least_proved = ~(uint64_t)0;
	upc_journal journal;
	int k;

	for (k = 0; k < ROUNDS; k++) {
		uint64_t it = call(), other = proved();

		if (it == ~(uint64_t)0 || other == ~(uint64_t)0)
			return 1;
		least = it < least ? it : least;
		least_proved = other < least_proved ? other : least_proved;
		if (is_card && upc_card_cut(&card, 1, 100, room, 65536, &journal, &fault) != 0)
			return 1;
	}
	printf("%s %.2f ns, proved call %.2f ns, the layer %.2f ns\n", name, (double)least / CALLS, (double)least_proved / CALLS,
	       ((double)least - (double)least_proved) / CALLS);
	return 0;
}

int main(void)
{
	static const uint8_t octets[] = {0x00, 0x30, 0, 0, 0, 0, 0, 3, 0x00, 0x45, 0, 1, 0, 0, 0, 8,
	                                 0x00, 0x06, 0, 0, 0, 0, 0, 1, 0x00, 0x06, 0, 0, 0, 0, 0, 2};
	const upc_shape shape = {UPC_UNI, 1, 1, 1, 65536};
	const upc_contract contracts[] = {{UPC_VBR3, 3, 2, 7, 5}, {UPC_VBR3, 4, 2, 8, 5}};
	upc_id id;
	int failed;

	failed = upc_program_new(octets, sizeof octets, &program, &fault) != 0 || upc_card_new(&shape, &card, &fault) != 0 ||
	         upc_card_load(&card, octets, sizeof octets, &id, &fault) != 0 ||
	         upc_card_setup(&card, 1, 100, &id, contracts, 2, &fault) != 0;
	failed = failed || compare("upc_judge", judge, proved_judge, 0) != 0;
	failed = failed || compare("upc_program_run", run, proved_run, 0) != 0;
	moment = 0;
	failed = failed || compare("upc_card_arrive", arrive, proved_arrive, 1) != 0;
	upc_card_free(&card);
	upc_program_free(&program);
	if (failed)
		fprintf(stderr, "%s\n", upc_strerror(&fault));
	return failed || sum == 1;
}
