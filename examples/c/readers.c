/* Readers: any number of threads read one card at the same time, by the calls that take it as const. They go through its
 * connections and read the state, the counts and the journal of each. Prints how many times each thread read a connection. */
#define _POSIX_C_SOURCE 200809L
#include <pthread.h>
#include <stdio.h>
#include "upc.h"

enum { THREADS = 4, CONNECTIONS = 3, ROUNDS = 200 };

/* ret #1: the first contract is for each cell. */
static const uint8_t octets[] = {0, 0x06, 0, 0, 0, 0, 0, 1};
static const upc_shape shape = {UPC_UNI, 1, CONNECTIONS, 1, 16};

/* What a thread gets: the card that all of them share, and what they wait for before the first read. */
typedef struct reader {
	const upc_card *card;
	pthread_barrier_t *start;
	unsigned long reads;
	int failed;
} reader;

/* The connection on channel 100 + k had 4 + k cells, one each five ticks. Its contract lets every second one pass. */
static int read_connection(const upc_card *card, const upc_cursor *at, unsigned k)
{
	const size_t cells = 4 + k;
	upc_meter room[UPC_MOST_CONTRACTS];
	upc_counts counts;
	upc_state state;
	size_t journal;

	return at->path != 1 || at->channel != 100 + k ||
	       upc_card_state(card, at->path, at->channel, room, UPC_MOST_CONTRACTS, &state, NULL) != 0 ||
	       upc_card_counts(card, at->path, at->channel, &counts, NULL) != 0 ||
	       upc_card_journal(card, at->path, at->channel, &journal, NULL) != 0 || state.incarnation != k + 1 ||
	       state.last != 5 * (cells - 1) || state.contracts != 1 || state.cells != cells || journal != cells ||
	       counts.passed != (cells + 1) / 2 || counts.discarded != cells / 2 || state.counts.passed != counts.passed;
}

/* Reads the size of the card, and all of its connections. */
static int read_card(reader *it)
{
	upc_cursor at = {0, 0, 0};
	upc_shape found;
	unsigned k;

	if (upc_card_shape(it->card, &found, NULL) != 0 || found.lines != shape.lines || found.journal != shape.journal)
		return 1;
	for (k = 0; k < CONNECTIONS; k++, it->reads++)
		if (upc_card_next(it->card, &at, NULL) != 0 || read_connection(it->card, &at, k) != 0)
			return 1;
	return upc_card_next(it->card, &at, NULL) != UPC_DESK_NO_CONNECTION;
}

static void *read_on(void *given)
{
	reader *it = (reader *)given;
	int round;

	pthread_barrier_wait(it->start);
	for (round = 0; round < ROUNDS && !it->failed; round++)
		it->failed = read_card(it);
	return NULL;
}

/* Sets up a connection, and gives the card its cells. */
static int set_up(upc_card *card, const upc_id *program, unsigned k, upc_fault *fault)
{
	const upc_contract contract = {UPC_CBR1, 10, 0, 0, 0};
	int failed = upc_card_setup(card, 1, (uint16_t)(100 + k), program, &contract, 1, fault) != 0;
	uint64_t moment;

	for (moment = 0; moment < 5 * (4 + k) && !failed; moment += 5) {
		uint8_t cell[UPC_CELL_OCTETS] = {0, 0x10, 0x06, 0x40};
		upc_answer answer;

		cell[3] = (uint8_t)(cell[3] + 16 * k);
		failed = upc_card_arrive(card, cell, sizeof cell, moment, &answer, fault) != 0;
	}
	return failed;
}

int main(void)
{
	static reader readers[THREADS];
	pthread_t threads[THREADS];
	pthread_barrier_t start;
	upc_card card = {0, 0};
	upc_fault fault;
	upc_id id;
	unsigned k;
	int failed = upc_card_new(&shape, &card, &fault) != 0 || upc_card_load(&card, octets, sizeof octets, &id, &fault) != 0;

	for (k = 0; k < CONNECTIONS && !failed; k++)
		failed = set_up(&card, &id, k, &fault);
	if (failed) {
		fprintf(stderr, "%s\n", upc_strerror(&fault));
		return 1;
	}
	if (pthread_barrier_init(&start, NULL, THREADS) != 0)
		return 1;
	for (k = 0; k < THREADS; k++) {
		readers[k].card = &card;
		readers[k].start = &start;
		if (pthread_create(&threads[k], NULL, read_on, &readers[k]) != 0)
			return 1;
	}
	for (k = 0; k < THREADS; k++) {
		failed = pthread_join(threads[k], NULL) != 0 || readers[k].failed || failed;
		printf("thread %u: %lu connections read\n", k, readers[k].reads);
	}
	pthread_barrier_destroy(&start);
	upc_card_free(&card);
	return failed;
}
