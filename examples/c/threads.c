/* Threads: one program that any number of them run, and a shelf of cards, of which each thread has its own. The cards are made
 * and freed by the first thread. Prints how many cells had each value, and how many passed on each card. */
#define _POSIX_C_SOURCE 200809L
#include <pthread.h>
#include <stdio.h>
#include "upc.h"

enum { THREADS = 4, CELLS = 1000 };

/* ldb [3]; and #1; add #1; ret a: 1 for cells of high priority, 2 for those of low. */
static const uint8_t octets[] = {0, 0x30, 0, 0, 0, 0, 0, 3, 0, 0x54, 0, 0, 0, 0, 0, 1, 0, 0x04, 0, 0, 0, 0, 0, 1, 0, 0x16, 0, 0, 0, 0, 0, 0};

/* What a thread gets: the shared program, and a card of its own. */
typedef struct slot {
	const upc_program *program;
	upc_card card;
	unsigned long of_value[3], passed;
	int failed;
} slot;

static void *police(void *given)
{
	slot *it = (slot *)given;
	uint64_t moment;

	for (moment = 0; moment < CELLS && !it->failed; moment++) {
		uint8_t cell[UPC_CELL_OCTETS] = {0, 0x10, 0x06, 0x40};
		uint32_t value = 0, steps;
		upc_answer answer;

		cell[3] = (uint8_t)(cell[3] | (moment % 3 == 0));
		it->failed = upc_program_run(it->program, cell, sizeof cell, &value, &steps, NULL) != 0 || value > 2 ||
		             upc_card_arrive(&it->card, cell, sizeof cell, moment, &answer, NULL) != 0;
		if (!it->failed) {
			it->of_value[value]++;
			it->passed += answer.verdict == UPC_PASS;
		}
	}
	return NULL;
}

int main(void)
{
	const upc_shape shape = {UPC_UNI, 1, 1, 1, CELLS};
	const upc_contract contracts[] = {{UPC_CBR1, 2, 0, 0, 0}, {UPC_CBR1, 1, 0, 0, 0}};
	static slot slots[THREADS];
	pthread_t threads[THREADS];
	upc_program program = {0, 0};
	upc_fault fault;
	upc_id id;
	int k, failed = upc_program_new(octets, sizeof octets, &program, &fault) != 0;

	for (k = 0; k < THREADS && !failed; k++) {
		slots[k].program = &program;
		failed = upc_card_new(&shape, &slots[k].card, &fault) != 0 ||
		         upc_card_load(&slots[k].card, octets, sizeof octets, &id, &fault) != 0 ||
		         upc_card_setup(&slots[k].card, 1, 100, &id, contracts, 2, &fault) != 0;
	}
	if (failed) {
		fprintf(stderr, "%s\n", upc_strerror(&fault));
		return 1;
	}
	for (k = 0; k < THREADS; k++)
		if (pthread_create(&threads[k], NULL, police, &slots[k]) != 0)
			return 1;
	for (k = 0; k < THREADS; k++) {
		failed = pthread_join(threads[k], NULL) != 0 || slots[k].failed || failed;
		printf("thread %d: %lu cells of high priority, %lu of low, %lu passed\n", k, slots[k].of_value[1], slots[k].of_value[2],
		       slots[k].passed);
		upc_card_free(&slots[k].card);
	}
	upc_program_free(&program);
	return failed;
}
