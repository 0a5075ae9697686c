/* The library's upc_judge beside the same in plain C: the same checks, the same answers, nothing proved. Prints the least
 * time a call of several rounds, their ratio, and whether both gave the same verdicts. */
#include <stdio.h>
#include <time.h>
#include "upc.h"

enum { FLOWS = 64, CELLS = 1 << 16, PASSES = 100, ROUNDS = 7 };

typedef uint32_t judge(const upc_contract *, upc_levels *, uint32_t, uint64_t, uint32_t *, upc_fault *);

static uint8_t flow[CELLS], clp[CELLS];
static uint64_t when[CELLS];

/* Sixteen bits of a linear congruential generator. */
static uint32_t random_bits(void)
{
	static uint32_t seed = 12345;
	seed = seed * 1103515245u + 12345u;
	return seed >> 16;
}

static uint32_t refuse(upc_fault *fault, uint32_t kind, uint32_t number, size_t place)
{
	const upc_fault found = {kind, number, place, 0, 0, 0};
	*fault = found;
	return number;
}

static uint64_t later(uint64_t one, uint64_t other)
{
	return one > other ? one : other;
}

__attribute__((noinline)) static uint32_t plain_judge(const upc_contract *contract, upc_levels *levels, uint32_t low,
                                                      uint64_t moment, uint32_t *verdict, upc_fault *fault)
{
	const upc_fault none = {0, 0, 0, 0, 0, 0};
	uint32_t kind = contract->kind;
	int meets = kind == UPC_VBR1 || (kind != UPC_CBR1 && low == 0);

	if (kind == 0 || kind > 4)
		return refuse(fault, UPC_CALL, UPC_UNKNOWN_KIND, 0);
	if (contract->peak_increment == 0)
		return refuse(fault, UPC_GCRA, 1, 1);
	if (contract->peak_increment > UPC_MOST_TICKS || contract->peak_limit > UPC_MOST_TICKS)
		return refuse(fault, UPC_GCRA, 2, 1);
	if (kind != UPC_CBR1 && contract->sustained_increment == 0)
		return refuse(fault, UPC_GCRA, 1, 2);
	if (kind != UPC_CBR1 && (contract->sustained_increment > UPC_MOST_TICKS || contract->sustained_limit > UPC_MOST_TICKS))
		return refuse(fault, UPC_GCRA, 2, 2);
	if (levels->first > UPC_LAST_LEVEL || levels->second > UPC_LAST_LEVEL)
		return refuse(fault, UPC_CALL, UPC_LATE_LEVELS, 0);
	if (moment > UPC_LAST_MOMENT)
		return refuse(fault, UPC_ARRIVE, 5, 0);
	*fault = none;
	if (levels->first > moment + contract->peak_limit) {
		*verdict = UPC_DISCARD;
		return 0;
	}
	*verdict = UPC_PASS;
	if (meets && levels->second > moment + contract->sustained_limit) {
		*verdict = kind == UPC_VBR3 ? UPC_TAG : UPC_DISCARD;
		if (kind != UPC_VBR3)
			return 0;
		meets = 0;
	}
	levels->first = later(levels->first, moment) + contract->peak_increment;
	if (meets)
		levels->second = later(levels->second, moment) + contract->sustained_increment;
	return 0;
}

/* The time of one call in nanoseconds; the verdicts are summed up. */
static double measure(judge *call, uint64_t *sum)
{
	const upc_contract contract = {UPC_VBR3, 100, 50, 400, 2750};
	upc_levels levels[FLOWS] = {{0, 0}};
	uint64_t base = 0;
	struct timespec begun, ended;
	upc_fault fault;
	int pass, k;

	*sum = 0;
	clock_gettime(CLOCK_MONOTONIC, &begun);
	for (pass = 0; pass < PASSES; pass++, base += when[CELLS - 1])
		for (k = 0; k < CELLS; k++) {
			uint32_t verdict;
			if (call(&contract, &levels[flow[k]], clp[k], base + when[k], &verdict, &fault) != 0)
				return -1;
			*sum = *sum * 3 + verdict;
		}
	clock_gettime(CLOCK_MONOTONIC, &ended);
	return ((double)(ended.tv_sec - begun.tv_sec) * 1e9 + (double)(ended.tv_nsec - begun.tv_nsec)) / PASSES / CELLS;
}

int main(void)
{
	double library = 1e9, plain = 1e9;
	uint64_t moment = 0, one = 0, other = 0;
	int k;

	for (k = 0; k < CELLS; k++) {
		flow[k] = (uint8_t)(random_bits() % FLOWS);
		clp[k] = (uint8_t)(random_bits() % 2);
		when[k] = moment += random_bits() % 4;
	}
	for (k = 0; k < ROUNDS; k++) {
		double it = measure(upc_judge, &one);
		library = it < library ? it : library;
		it = measure(plain_judge, &other);
		plain = it < plain ? it : plain;
	}
	printf("upc_judge %.2f ns, plain C %.2f ns, ratio %.2f, %s verdicts\n", library, plain, library / plain,
	       one == other ? "the same" : "OTHER");
	return one != other;
}
