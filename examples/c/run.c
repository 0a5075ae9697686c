/* `upc run` over the library. Reads a script and prints the same answers as the program, one for each line with words.
 * It knows all errors of scripts whose words have the right forms, and only BadLine for others. */
#include <inttypes.h>
#include <stdio.h>
#include <stdlib.h>
#include <string.h>
#include "upc.h"

enum { MOST_NAMES = 4096, MOST_OCTETS = 32768, MOST_LINE = 70000 };

/* The card of the script, the side of its cells, whether its connections are virtual paths, and its programs by name: p1 is
 * the first. */
static upc_card card;
static uint32_t side;
static int has_paths;
static upc_id names[MOST_NAMES];
static unsigned long named;

static void print_fault(const upc_fault *fault)
{
	uint32_t result = 256 * fault->kind + fault->number;

	if (fault->kind == UPC_CALL) { /* a number of a word is out of its limits, or an allocation failed */
		if (result == UPC_NO_MEMORY)
			exit(3);
		printf("fault script 1 BadLine\n");
		return;
	}
	printf("fault %s", upc_strerror(fault));
	switch (result) {
	case UPC_CELL_WRONG_LENGTH:
	case UPC_ARRIVE_MOMENT_BACK:
	case UPC_VERIFY_BAD_SCRATCH:
	case UPC_VERIFY_ZERO_DIVISOR:
	case UPC_VERIFY_BAD_SHIFT:
	case UPC_VERIFY_JUMP_OUTSIDE:
		printf(" %lu", (unsigned long)fault->place);
		break;
	case UPC_VERIFY_UNWRITTEN:
		printf(" %lu %" PRIu32, (unsigned long)fault->place, fault->word);
		break;
	case UPC_DECODE_UNKNOWN_CODE:
		printf(" %lu %04" PRIx32, (unsigned long)fault->place, fault->code);
		break;
	}
	printf("\n");
}

/* The number of octets of the digits, at most MOST_OCTETS, or -1 if the word isn't hexadecimal. */
static long octets_of(const char *digits, uint8_t *octets)
{
	size_t length = strlen(digits), k;

	if (length % 2 != 0 || length > 2 * MOST_OCTETS || strspn(digits, "0123456789abcdefABCDEF") != length)
		return -1;
	for (k = 0; k < length / 2; k++) {
		char pair[3] = {digits[2 * k], digits[2 * k + 1], 0};

		octets[k] = (uint8_t)strtoul(pair, NULL, 16);
	}
	return (long)(length / 2);
}

/* The program of this name, if there is one. */
static const upc_id *program_of(unsigned long name)
{
	return name >= 1 && name <= named ? &names[name - 1] : NULL;
}

/* The latest name of a program. */
static unsigned long name_in(const upc_id *id)
{
	unsigned long name = named;

	while (name > 0 && (names[name - 1].slot != id->slot || names[name - 1].generation != id->generation))
		name--;
	return name;
}

static void open_card(const char *line)
{
	static const uint32_t sides[2][2] = {{UPC_UNI, UPC_UNI_PATHS}, {UPC_NNI, UPC_NNI_PATHS}};
	upc_shape shape = {UPC_UNI, 0, 0, 0, 0};
	upc_fault fault;
	char word[4] = "uni", last[6] = "";

	if (sscanf(line, "card %" SCNu64 " %" SCNu64 " %" SCNu64 " %" SCNu64 " %3s %5s", &shape.programs, &shape.lines,
	           &shape.ports, &shape.journal, word, last) < 4) {
		printf("fault script 2 NoCard\n");
		exit(1);
	}
	has_paths = strcmp(last, "paths") == 0;
	shape.side = side = sides[strcmp(word, "nni") == 0][has_paths];
	if (upc_card_new(&shape, &card, &fault) != 0) {
		print_fault(&fault);
		exit(1);
	}
	printf("ready\n");
}

static void load(const char *digits)
{
	static uint8_t octets[MOST_OCTETS];
	long count = octets_of(digits, octets);
	upc_fault fault;

	if (count < 0)
		printf("fault script 3 BadHex\n");
	else if (named == MOST_NAMES)
		exit(3);
	else if (upc_card_load(&card, octets, (size_t)count, &names[named], &fault) != 0)
		print_fault(&fault);
	else
		printf("loaded p%lu\n", ++named);
}

static void retire(unsigned long name)
{
	const upc_id *program = program_of(name);
	upc_fault fault;

	if (program == NULL)
		printf("fault desk 1 NoProgram\n");
	else if (upc_card_retire(&card, program, &fault) != 0)
		print_fault(&fault);
	else
		printf("retired p%lu\n", name);
}

/* The contracts of these words, or -1 if one isn't a contract. */
static int contracts_of(char *words, upc_contract *contracts)
{
	static const char *const kinds[] = {"cbr1:", "vbr1:", "vbr2:", "vbr3:"};
	int count = 0;
	char *word;

	for (word = strtok(words, " \t\n"); word != NULL; word = strtok(NULL, " \t\n"), count++) {
		upc_contract contract = {0, 0, 0, 0, 0};
		int k, numbers;

		for (k = 0; k < 4 && strncmp(word, kinds[k], 5) != 0; k++)
			;
		numbers = sscanf(word + (k < 4 ? 5 : 0), "%" SCNu64 "/%" SCNu64 ":%" SCNu64 "/%" SCNu64, &contract.peak_increment,
		                 &contract.peak_limit, &contract.sustained_increment, &contract.sustained_limit);
		if (k == 4 || count == UPC_MOST_CONTRACTS || numbers != (k == 0 ? 2 : 4))
			return -1;
		contract.kind = (uint32_t)k + 1;
		contracts[count] = contract;
	}
	return count;
}

/* Prints a word and the name of a connection. */
static void print_name(const char *word, unsigned path, unsigned channel)
{
	printf("%s %u/", word, path);
	if (has_paths)
		printf("*");
	else
		printf("%u", channel);
}

static void set_up(unsigned path, unsigned channel, unsigned long name, char *words)
{
	upc_contract contracts[UPC_MOST_CONTRACTS];
	const upc_id *program = program_of(name);
	int count = contracts_of(words, contracts), k;
	upc_fault fault;

	if (count < 1 || channel > 65535 || path > 4095) {
		printf("fault script 1 BadLine\n");
		return;
	}
	for (k = 0; k < count && program == NULL; k++)
		if (upc_contract_check(&contracts[k], &fault) != 0) {
			print_fault(&fault);
			return;
		}
	if (program == NULL)
		printf("fault desk 1 NoProgram\n");
	else if (upc_card_setup(&card, (uint16_t)path, (uint16_t)channel, program, contracts, (size_t)count, &fault) != 0)
		print_fault(&fault);
	else {
		print_name("set", path, channel);
		printf("\n");
	}
}

static void reload(unsigned path, unsigned channel, unsigned long name)
{
	const upc_id *program = program_of(name);
	upc_fault fault;
	upc_id earlier;

	if (program == NULL)
		printf("fault desk 1 NoProgram\n");
	else if (upc_card_reload(&card, (uint16_t)path, (uint16_t)channel, program, &earlier, &fault) != 0)
		print_fault(&fault);
	else {
		print_name("reloaded", path, channel);
		printf(" p%lu\n", name);
	}
}

/* upc_card_release or upc_card_cut. */
typedef uint32_t hand_out(upc_card *, uint16_t, uint16_t, upc_entry *, size_t, upc_journal *, upc_fault *);

/* Room for this number of entries. */
static upc_entry *room_for(size_t cells)
{
	upc_entry *room = (upc_entry *)malloc(cells > 0 ? cells * sizeof *room : 1);

	if (room == NULL)
		exit(3);
	return room;
}

/* Reads the number of cells of the journal, has it returned, and prints the number of its cells with each verdict. */
static void print_journal(const char *word, unsigned path, unsigned channel, hand_out *call)
{
	unsigned long counts[4] = {0, 0, 0, 0};
	size_t cells = 0, k;
	upc_journal journal;
	upc_entry *room;
	upc_fault fault;

	if (upc_card_journal(&card, (uint16_t)path, (uint16_t)channel, &cells, &fault) != 0) {
		print_fault(&fault);
		return;
	}
	room = room_for(cells);
	if (call(&card, (uint16_t)path, (uint16_t)channel, room, cells, &journal, &fault) != 0)
		print_fault(&fault);
	else {
		for (k = 0; k < journal.cells; k++)
			counts[room[k].verdict]++;
		print_name(word, path, channel);
		printf(" %lu %lu %lu %lu %lu\n", (unsigned long)journal.cells, counts[UPC_PASS], counts[UPC_TAG],
		       counts[UPC_DISCARD], counts[UPC_REFUSE]);
	}
	free(room);
}

static void police(uint64_t moment, const char *digits)
{
	static const char *const verdicts[] = {"pass", "tag", "discard", "refuse"};
	static uint8_t octets[MOST_OCTETS];
	long count = octets_of(digits, octets);
	upc_answer answer;
	upc_fields fields;
	upc_fault fault;

	if (count < 0) {
		printf("fault script 3 BadHex\n");
		return;
	}
	if (count == 4) { /* only a header: the payload is zeros */
		memset(octets + 4, 0, UPC_CELL_OCTETS - 4);
		count = UPC_CELL_OCTETS;
	}
	if (upc_card_arrive(&card, octets, (size_t)count, moment, &answer, &fault) != 0 ||
	    upc_cell_fields(octets, (size_t)count, side, &fields, &fault) != 0) {
		print_fault(&fault);
		return;
	}
	print_name(verdicts[answer.verdict], fields.vpi, fields.vci);
	printf(" p%lu %" PRIu32, name_in(&answer.program), answer.value);
	if (answer.verdict == UPC_PASS || answer.verdict == UPC_TAG)
		printf(" %02x%02x%02x%02x", octets[0], octets[1], octets[2], octets[3]);
	printf("\n");
}

/* Reads a path and a channel after a word. On a card of virtual paths the channel is the word `*`, and 0 for the library.
 * Returns the rest of the line, or NULL if they aren't there. */
static char *connection_after(const char *word, char *line, unsigned *path, unsigned *channel)
{
	size_t length = strlen(word);
	int end = 0;

	if (strncmp(line, word, length) != 0 || strspn(line + length, " \t") == 0)
		return NULL;
	*channel = 0;
	if (has_paths ? sscanf(line + length, "%u *%n", path, &end) < 1 : sscanf(line + length, "%u %u%n", path, channel, &end) < 2)
		return NULL;
	return end > 0 ? line + length + end : NULL; /* 0 if the star isn't there */
}

static void obey(char *line)
{
	static char digits[MOST_LINE];
	unsigned path, channel;
	unsigned long name;
	uint64_t moment;
	char *rest;
	int end = 0;

	if (sscanf(line, "load %69999s", digits) == 1)
		load(digits);
	else if (sscanf(line, "retire p%lu", &name) == 1)
		retire(name);
	else if ((rest = connection_after("setup", line, &path, &channel)) != NULL && sscanf(rest, " p%lu%n", &name, &end) == 1)
		set_up(path, channel, name, rest + end);
	else if ((rest = connection_after("reload", line, &path, &channel)) != NULL && sscanf(rest, " p%lu", &name) == 1)
		reload(path, channel, name);
	else if (connection_after("release", line, &path, &channel) != NULL)
		print_journal("released", path, channel, upc_card_release);
	else if (connection_after("cut", line, &path, &channel) != NULL)
		print_journal("cut", path, channel, upc_card_cut);
	else if (sscanf(line, "cell %" SCNu64 " %69999s", &moment, digits) == 2)
		police(moment, digits);
	else
		printf("fault script 1 BadLine\n");
}

int main(void)
{
	static char line[MOST_LINE];

	while (fgets(line, sizeof line, stdin)) {
		const char *word = line + strspn(line, " \t");

		if (*word == '\n' || *word == '#' || *word == 0)
			continue;
		if (card.live == 0)
			open_card(word);
		else
			obey(line);
	}
	upc_card_free(&card);
	return 0;
}
