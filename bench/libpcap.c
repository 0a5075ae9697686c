/* The work that is measured, and libpcap's times for it.
 *
 *   libpcap work             writes the work: cells, then programs to run and to check
 *   libpcap measure          does it by bpf_filter and bpf_validate, and prints times and sums
 *   libpcap lines KIND N     writes an input of N lines for upc eval; KIND is header, zeros or random
 */
#include <pcap/pcap.h>
#include <stdint.h>
#include <stdio.h>
#include <stdlib.h>
#include <string.h>
#include <time.h>

enum { CELLS = 1024, OCTETS = 52, LONGEST = 4096, ROUNDS = 5 };

struct program {
	const char *name;
	unsigned times; /* passes over the cells a round, or checks a round */
	unsigned length;
	struct bpf_insn code[LONGEST];
};

static uint8_t cells[CELLS][OCTETS];

/* Sixteen bits of a linear congruential generator. */
static uint32_t random_bits(void)
{
	static uint32_t seed = 12345;
	seed = seed * 1103515245u + 12345u;
	return seed >> 16;
}

/* A cell of VPI 1 or 2 and one of 16 channels, half of them user data and half end-to-end OAM. */
static void make_header(uint8_t *cell)
{
	uint32_t bits = random_bits();
	cell[0] = 0;
	cell[1] = bits & 1 ? 0x10 : 0x20;
	cell[2] = bits >> 1 & 15;
	cell[3] = bits & 0x20 ? 0x40 : 0x4a;
}

static void make_cells(void)
{
	for (int at = 0; at < CELLS; at++) {
		make_header(cells[at]);
		for (int octet = 4; octet < OCTETS; octet++)
			cells[at][octet] = random_bits() & 0xff;
	}
}

static void append(struct program *program, const struct bpf_insn *code, unsigned length)
{
	memcpy(program->code + program->length, code, length * sizeof *code);
	program->length += length;
}

#define APPEND(program, ...) \
	do { \
		const struct bpf_insn piece[] = { __VA_ARGS__ }; \
		append(program, piece, sizeof piece / sizeof *piece); \
	} while (0)

/* The program of examples/first.eval. */
static void make_four(struct program *program)
{
	APPEND(program,
		BPF_STMT(BPF_LD | BPF_B | BPF_ABS, 3),
		BPF_JUMP(BPF_JMP | BPF_JEQ | BPF_K, 0x4a, 1, 0),
		BPF_STMT(BPF_RET | BPF_K, 2),
		BPF_STMT(BPF_RET | BPF_K, 1));
}

/* The channel, the payload type and the first octets of the payload, made into one number. */
static void make_twenty(struct program *program)
{
	APPEND(program,
		BPF_STMT(BPF_LD | BPF_W | BPF_ABS, 0),
		BPF_STMT(BPF_ST, 0),
		BPF_STMT(BPF_ALU | BPF_RSH | BPF_K, 4),
		BPF_STMT(BPF_ALU | BPF_AND | BPF_K, 0xffff),
		BPF_JUMP(BPF_JMP | BPF_JGT | BPF_K, 3, 0, 14),
		BPF_STMT(BPF_MISC | BPF_TAX, 0),
		BPF_STMT(BPF_LD | BPF_B | BPF_ABS, 3),
		BPF_STMT(BPF_ALU | BPF_AND | BPF_K, 0xe),
		BPF_JUMP(BPF_JMP | BPF_JGE | BPF_K, 8, 1, 0),
		BPF_STMT(BPF_ALU | BPF_OR | BPF_K, 0x20),
		BPF_STMT(BPF_ST, 1),
		BPF_STMT(BPF_LD | BPF_H | BPF_ABS, 4),
		BPF_STMT(BPF_ALU | BPF_AND | BPF_K, 0x1f),
		BPF_STMT(BPF_ALU | BPF_ADD | BPF_X, 0),
		BPF_STMT(BPF_STX, 2),
		BPF_STMT(BPF_LDX | BPF_MEM, 1),
		BPF_STMT(BPF_ALU | BPF_ADD | BPF_X, 0),
		BPF_JUMP(BPF_JMP | BPF_JSET | BPF_K, 1, 1, 0),
		BPF_STMT(BPF_ALU | BPF_LSH | BPF_K, 1),
		BPF_STMT(BPF_RET | BPF_A, 0));
}

/* 26 groups that each read two places of the payload, branch on them and add to a total in M[0]. */
static void make_five_hundred(struct program *program)
{
	APPEND(program,
		BPF_STMT(BPF_LD | BPF_W | BPF_ABS, 0),
		BPF_STMT(BPF_ST, 0));
	for (unsigned group = 0; group < 26; group++)
		APPEND(program,
			BPF_STMT(BPF_LD | BPF_H | BPF_ABS, 4 + 2 * (group % 24)),
			BPF_STMT(BPF_ST, 2 + group % 8),
			BPF_STMT(BPF_ALU | BPF_AND | BPF_K, 0x1f),
			BPF_STMT(BPF_MISC | BPF_TAX, 0),
			BPF_STMT(BPF_LD | BPF_B | BPF_IND, 4 + group % 16),
			BPF_JUMP(BPF_JMP | BPF_JGT | BPF_K, 0xbf, 2, 0),
			BPF_STMT(BPF_ALU | BPF_OR | BPF_K, 1),
			BPF_STMT(BPF_ALU | BPF_LSH | BPF_K, 1),
			BPF_STMT(BPF_ALU | BPF_ADD | BPF_X, 0),
			BPF_STMT(BPF_ST, 1),
			BPF_STMT(BPF_LDX | BPF_MEM, 2 + group % 8),
			BPF_STMT(BPF_LD | BPF_MEM, 0),
			BPF_STMT(BPF_ALU | BPF_ADD | BPF_X, 0),
			BPF_STMT(BPF_LDX | BPF_MEM, 1),
			BPF_STMT(BPF_ALU | BPF_SUB | BPF_X, 0),
			BPF_STMT(BPF_ST, 0),
			BPF_JUMP(BPF_JMP | BPF_JSET | BPF_K, 0x800000, 0, 1),
			BPF_STMT(BPF_ALU | BPF_NEG, 0),
			BPF_JUMP(BPF_JMP | BPF_JEQ | BPF_X, 0, 0, 0));
	APPEND(program, BPF_STMT(BPF_RET | BPF_A, 0));
}

/* Two ways through headers and payload, with arithmetic and a scratch word. The pairs of instructions that
 * the machine runs as one were not chosen by it. */
static void make_other(struct program *program)
{
	APPEND(program,
		BPF_STMT(BPF_LD | BPF_B | BPF_ABS, 1),
		BPF_STMT(BPF_ALU | BPF_RSH | BPF_K, 4),
		BPF_JUMP(BPF_JMP | BPF_JEQ | BPF_K, 1, 0, 9),
		BPF_STMT(BPF_LD | BPF_H | BPF_ABS, 4),
		BPF_STMT(BPF_ALU | BPF_SUB | BPF_K, 0x400),
		BPF_JUMP(BPF_JMP | BPF_JGE | BPF_K, 0xf000, 0, 3),
		BPF_STMT(BPF_LD | BPF_B | BPF_ABS, 6),
		BPF_STMT(BPF_ALU | BPF_ADD | BPF_K, 3),
		BPF_STMT(BPF_RET | BPF_A, 0),
		BPF_STMT(BPF_LD | BPF_W | BPF_ABS, 8),
		BPF_STMT(BPF_ALU | BPF_MUL | BPF_K, 2654435761u),
		BPF_STMT(BPF_JMP | BPF_JA, 8),
		BPF_STMT(BPF_LDX | BPF_MSH | BPF_B, 40),
		BPF_STMT(BPF_LD | BPF_H | BPF_IND, 0),
		BPF_STMT(BPF_ALU | BPF_AND | BPF_K, 0xfff),
		BPF_STMT(BPF_ST, 5),
		BPF_STMT(BPF_LD | BPF_B | BPF_ABS, 12),
		BPF_STMT(BPF_LDX | BPF_MEM, 5),
		BPF_STMT(BPF_ALU | BPF_ADD | BPF_X, 0),
		BPF_STMT(BPF_ALU | BPF_LSH | BPF_K, 7),
		BPF_STMT(BPF_ALU | BPF_RSH | BPF_K, 3),
		BPF_STMT(BPF_MISC | BPF_TAX, 0),
		BPF_STMT(BPF_LD | BPF_B | BPF_ABS, 30),
		BPF_STMT(BPF_ALU | BPF_ADD | BPF_X, 0),
		BPF_JUMP(BPF_JMP | BPF_JGT | BPF_K, 0xffffff, 0, 1),
		BPF_STMT(BPF_ALU | BPF_NEG, 0),
		BPF_STMT(BPF_RET | BPF_A, 0));
}

/* 4096 instructions without a branch. */
static void make_straight(struct program *program)
{
	while (program->length < LONGEST - 3)
		APPEND(program,
			BPF_STMT(BPF_LD | BPF_B | BPF_ABS, program->length % OCTETS),
			BPF_STMT(BPF_ALU | BPF_AND | BPF_K, 0xe),
			BPF_STMT(BPF_ALU | BPF_ADD | BPF_X, 0));
	while (program->length < LONGEST - 1)
		APPEND(program, BPF_STMT(BPF_MISC | BPF_TXA, 0));
	APPEND(program, BPF_STMT(BPF_RET | BPF_A, 0));
}

/* 4096 instructions: stores, branches to the next two places, and reads of what was stored. */
static void make_ladder(struct program *program)
{
	while (program->length < LONGEST - 3)
		APPEND(program,
			BPF_STMT(BPF_ST, program->length / 3 % 16),
			BPF_JUMP(BPF_JMP | BPF_JSET | BPF_K, 1, 1, 0),
			BPF_STMT(BPF_LD | BPF_MEM, program->length / 3 % 16));
	while (program->length < LONGEST - 1)
		APPEND(program, BPF_STMT(BPF_MISC | BPF_TXA, 0));
	APPEND(program, BPF_STMT(BPF_RET | BPF_A, 0));
}

static struct program to_run[] = {
	{ .name = "4", .times = 2000 },
	{ .name = "20", .times = 400 },
	{ .name = "500", .times = 16 },
	{ .name = "27", .times = 300 },
};
static struct program to_check[] = {
	{ .name = "straight", .times = 200 },
	{ .name = "ladder", .times = 200 },
	{ .name = "short", .times = 2000 },
};

enum { TO_RUN = sizeof to_run / sizeof *to_run, TO_CHECK = sizeof to_check / sizeof *to_check };

static void make_programs(void)
{
	make_four(&to_run[0]);
	make_twenty(&to_run[1]);
	make_five_hundred(&to_run[2]);
	make_other(&to_run[3]);
	make_straight(&to_check[0]);
	make_ladder(&to_check[1]);
	make_twenty(&to_check[2]);
}

static void write_digits(const uint8_t *octets, unsigned count)
{
	for (unsigned at = 0; at < count; at++) {
		putchar_unlocked("0123456789abcdef"[octets[at] >> 4]);
		putchar_unlocked("0123456789abcdef"[octets[at] & 15]);
	}
}

static void write_program(const char *kind, const struct program *program)
{
	printf("%s %s %u ", kind, program->name, program->times);
	for (unsigned at = 0; at < program->length; at++) {
		const struct bpf_insn *instr = &program->code[at];
		printf("%04x%02x%02x%08x", instr->code, instr->jt, instr->jf, instr->k);
	}
	putchar('\n');
}

static void write_work(void)
{
	for (int at = 0; at < CELLS; at++) {
		fputs("cell - 0 ", stdout);
		write_digits(cells[at], OCTETS);
		putchar('\n');
	}
	for (int at = 0; at < TO_RUN; at++)
		write_program("run", &to_run[at]);
	for (int at = 0; at < TO_CHECK; at++)
		write_program("check", &to_check[at]);
}

static uint64_t nanoseconds(void)
{
	struct timespec now;
	clock_gettime(CLOCK_MONOTONIC, &now);
	return (uint64_t)now.tv_sec * 1000000000u + (uint64_t)now.tv_nsec;
}

/* Prints the least time of a round, and the sum of the values of one pass. */
static void measure_runs(const struct program *program)
{
	uint64_t least = UINT64_MAX;
	uint32_t sum = 0;
	for (int round = 0; round < ROUNDS; round++) {
		uint64_t start = nanoseconds();
		for (unsigned pass = 0; pass < program->times; pass++) {
			sum = 0;
			for (int at = 0; at < CELLS; at++)
				sum += bpf_filter(program->code, cells[at], OCTETS, OCTETS);
		}
		uint64_t spent = nanoseconds() - start;
		if (spent < least)
			least = spent;
	}
	printf("run %s %llu %u\n", program->name, (unsigned long long)least / program->times, sum);
}

/* Prints the least time of one check, and whether the program was accepted. */
static void measure_checks(const struct program *program)
{
	uint64_t least = UINT64_MAX;
	int accepted = 0;
	for (unsigned time = 0; time < ROUNDS * program->times; time++) {
		uint64_t start = nanoseconds();
		accepted = bpf_validate(program->code, (int)program->length);
		uint64_t spent = nanoseconds() - start;
		if (spent < least)
			least = spent;
	}
	printf("check %s %llu %d\n", program->name, (unsigned long long)least, accepted);
}

static void write_lines(const char *kind, unsigned long count)
{
	uint8_t cell[OCTETS] = { 0 };
	fputs("0030000000000003001500010000004a00060000000000020006000000000001\n", stdout);
	for (unsigned long line = 1; line < count; line++) {
		make_header(cell);
		if (strcmp(kind, "random") == 0)
			for (int octet = 4; octet < OCTETS; octet++)
				cell[octet] = random_bits() & 0xff;
		write_digits(cell, strcmp(kind, "header") == 0 ? 4 : OCTETS);
		putchar('\n');
	}
}

int main(int count, char **words)
{
	make_cells();
	make_programs();
	if (count == 2 && strcmp(words[1], "work") == 0) {
		write_work();
	} else if (count == 2 && strcmp(words[1], "measure") == 0) {
		for (int at = 0; at < TO_RUN; at++)
			measure_runs(&to_run[at]);
		for (int at = 0; at < TO_CHECK; at++)
			measure_checks(&to_check[at]);
	} else if (count == 4 && strcmp(words[1], "lines") == 0) {
		write_lines(words[2], strtoul(words[3], NULL, 10));
	} else {
		return 2;
	}
	return fflush(stdout) == 0 ? 0 : 1;
}
