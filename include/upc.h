/* upc.h: the proved policer for ATM cells, as a library for C and C++.
 *
 * Each call with a upc_fault *fault returns 0, or the constant of the fault for which it refused, such as
 * UPC_VERIFY_UNWRITTEN, and fills *fault with zeros, or with that fault. A call that refuses writes nothing else, except upc_card_arrive_many.
 *
 * Each call first looks for null pointers. A fault may be null: then only the result reports it. Octets, moments, contracts,
 * meters, entries and answers may be null if the length next to them is 0. Any other null pointer is refused as
 * UPC_NULL_POINTER, and nothing is read. The two calls that free do nothing with null. These tests are C, made by a script and tested.
 *
 * After these tests, what each call does is proved (crates/upc_c/README.md), if its caller keeps these rules. Nothing checks them:
 *
 *  - Each pointer that isn't null points to memory of its type, aligned for it; octets, moments, contracts, meters, entries
 *    and answers to as many as the length next to them, which take at most PTRDIFF_MAX octets. The call may read them,
 *    and write if the pointer is to no const.
 *  - Memory that a call may write is borrowed by that argument alone: it overlaps none of the others, and no other
 *    thread reads or writes it before the call returns. Memory that a call may only read is not changed before that.
 *  - Calls of the sections marked (memory) allocate by malloc and realloc and free by free, all of one allocator, whose
 *    blocks are aligned for every type of at most 16 octets. They are called from no signal handler, nor from the child
 *    that a process with threads forked.
 *
 *  - A upc_program and a upc_card are all zeros, or as these calls left them.
 *
 *  - The thread has UPC_STACK octets of stack left, for upc_rules_compile UPC_RULES_STACK. That this is enough is
 *    measured, and not proved.
 *
 * Any number of threads may call at once. The library stores nothing between calls except in its caller's objects. A
 * upc_program or upc_card may be made on one thread and used on another (proved), by one at a time. Calls that take it as
 * const may be made on one handle by any number of threads at once, while no other call is, as in examples/c/threads.c and
 * examples/c/readers.c (tested, not proved).
 */
#ifndef UPC_H
#define UPC_H

#include <stddef.h>
#include <stdint.h>

#ifdef __cplusplus
extern "C" {
#endif

/* Compilers warn if the result of a call that may refuse isn't looked at. */
#if defined(__GNUC__)
#define UPC_RESULT __attribute__((__warn_unused_result__))
#else
#define UPC_RESULT
#endif

/* Stops the compiler if a type has another size than in the library, which is made for machines of 64 bits. */
#if defined(__cplusplus) && __cplusplus >= 201103L
#define UPC_SIZE(type, size) static_assert(sizeof(type) == (size), "the size of " #type)
#elif defined(__STDC_VERSION__) && __STDC_VERSION__ >= 201112L
#define UPC_SIZE(type, size) _Static_assert(sizeof(type) == (size), "the size of " #type)
#else
#define UPC_SIZE(type, size) typedef char type##_has_its_size[sizeof(type) == (size) ? 1 : -1]
#endif

/* The version of this header, and of the library that is linked. */
#define UPC_VERSION 2
uint32_t upc_version(void);

/* The stack that is enough for each call, in octets. Measured on x86-64: upc_check, upc_program_new and upc_card_load take
 * 25 KiB, upc_listing takes 4 KiB, upc_card_state 3 KiB, and each other call less than 2 KiB. */
#define UPC_STACK 65536

/* The stack that is enough for upc_rules_compile. Tests that `and` and `or` join take none of it, however many they are;
 * parentheses do, of which at most 64 are open at once. Measured on x86-64: less than 128 KiB. */
#define UPC_RULES_STACK (256 << 10)

/* ---- Faults ---- */

/* The reason why a call refused. A member that the fault doesn't use is 0. */
typedef struct upc_fault {
	uint32_t kind;   /* one of enum upc_kind */
	uint32_t number; /* from 1: its number among the faults of this kind. The result of the call is 256 * kind + number */
	size_t place;    /* see enum upc_kind */
	uint32_t word;   /* the scratch word, 0 to 15, of UPC_VERIFY_UNWRITTEN */
	uint32_t code;   /* the code of UPC_DECODE_UNKNOWN_CODE */
	size_t column;   /* the column of a fault of UPC_RULES, from 1 */
} upc_fault;
UPC_SIZE(upc_fault, 32);

/* The kind of a fault. Names and numbers are those of docs/FORMATS.md, except UPC_CALL and UPC_BURST, which only the library has. */
enum upc_kind {
	UPC_FINE = 0,   /* none */
	UPC_CALL = 1,   /* one of enum upc_call */
	UPC_CELL = 2,   /* place: the number of octets */
	UPC_DECODE = 3, /* place: of the instruction, from 0 */
	UPC_ASM = 4,    /* place: the line, from 1 */
	UPC_VERIFY = 5, /* place: of the instruction, from 0 */
	UPC_GCRA = 6,   /* place: the bucket, 1 or 2 */
	UPC_BURST = 7,
	UPC_ARRIVE = 8, /* place: of UPC_ARRIVE_MOMENT_BACK, the moment of the connection's last judged cell. A card in threads
	                   may report 2 Released and 3 Stale, which no card of this library reports (proved) */
	UPC_SHAPE = 9,
	UPC_DESK = 10,  /* a card in threads may report 9 Busy and 11 Stale, which no card of this library reports (proved) */
	UPC_RULES = 11  /* place: the line, from 1. Line and column are 0 if the code is too long */
};

/* The results of calls that refuse: each is 256 times the kind of the fault, plus its number. Here are those of the call
 * itself: */
enum upc_call {
	UPC_NO_MEMORY = 257,      /* malloc or realloc returned null */
	UPC_NO_ROOM = 258,        /* the room is too small; place: the octets, entries, meters or answers that are needed */
	UPC_UNKNOWN_KIND = 259,   /* the contract is of none of the four kinds */
	UPC_LATE_LEVELS = 260,    /* the levels are above UPC_LAST_LEVEL */
	UPC_UNKNOWN_SIDE = 261,   /* the side is none of enum upc_side */
	UPC_PROGRAM_THERE = 262,  /* the upc_program has a program already */
	UPC_NO_PROGRAM = 263,     /* the upc_program has none */
	UPC_CARD_THERE = 264,     /* the upc_card has a card already */
	UPC_NO_CARD = 265,        /* the upc_card has none */
	UPC_LARGE_PATH = 266,     /* the path is above 255, or between nodes of the network above 4095 */
	UPC_MANY_CONTRACTS = 267, /* there are more than UPC_MOST_CONTRACTS */
	UPC_NULL_POINTER = 268    /* a pointer is null that may not be; nothing was read */
};

/* And here those of the other kinds, which docs/FORMATS.md explains; made by tools/faults.py. */
enum upc_result {
	UPC_CELL_WRONG_LENGTH = 513,
	UPC_DECODE_RAGGED = 769,
	UPC_DECODE_UNKNOWN_CODE = 770,
	UPC_ASM_BAD_LINE = 1025,
	UPC_ASM_BAD_NUMBER = 1026,
	UPC_ASM_LABEL_TWICE = 1027,
	UPC_ASM_UNKNOWN_LABEL = 1028,
	UPC_ASM_BACKWARD = 1029,
	UPC_ASM_TOO_FAR = 1030,
	UPC_ASM_DANGLING_LABEL = 1031,
	UPC_VERIFY_EMPTY = 1281,
	UPC_VERIFY_TOO_LONG = 1282,
	UPC_VERIFY_BAD_SCRATCH = 1283,
	UPC_VERIFY_ZERO_DIVISOR = 1284,
	UPC_VERIFY_BAD_SHIFT = 1285,
	UPC_VERIFY_JUMP_OUTSIDE = 1286,
	UPC_VERIFY_NO_RETURN = 1287,
	UPC_VERIFY_UNWRITTEN = 1288,
	UPC_GCRA_ZERO_INCREMENT = 1537,
	UPC_GCRA_TOO_LARGE = 1538,
	UPC_BURST_ZERO_MBS = 1793,
	UPC_BURST_PEAK_SLOWER = 1794,
	UPC_BURST_TOO_LARGE = 1795,
	UPC_ARRIVE_NO_CONNECTION = 2049,
	UPC_ARRIVE_MOMENT_BACK = 2052,
	UPC_ARRIVE_MOMENT_TOO_LATE = 2053,
	UPC_ARRIVE_JOURNAL_FULL = 2054,
	UPC_SHAPE_PROGRAMS = 2305,
	UPC_SHAPE_LINES = 2306,
	UPC_SHAPE_PORTS = 2307,
	UPC_SHAPE_JOURNAL = 2308,
	UPC_DESK_NO_PROGRAM = 2561,
	UPC_DESK_NO_CONNECTION = 2562,
	UPC_DESK_TAKEN = 2563,
	UPC_DESK_NO_LINE = 2564,
	UPC_DESK_IN_USE = 2565,
	UPC_DESK_PROGRAMS_FULL = 2566,
	UPC_DESK_EXHAUSTED = 2567,
	UPC_DESK_BAD_CONTRACTS = 2568,
	UPC_RULES_BAD_LINE = 2817,
	UPC_RULES_BAD_NUMBER = 2818,
	UPC_RULES_TOO_LARGE = 2819,
	UPC_RULES_OUTSIDE_CELL = 2820,
	UPC_RULES_AFTER_OTHERWISE = 2821,
	UPC_RULES_UNBALANCED = 2822,
	UPC_RULES_TOO_DEEP = 2823,
	UPC_RULES_TOO_LONG = 2824,
	UPC_RULES_UNKNOWN_NAME = 2826,
	UPC_RULES_NAME_TAKEN = 2827
};
/* end of faults */

/* The kind, number and name of a fault, as "verify 8 Unwritten", and the name of a kind, as "verify". A null pointer and
 * a fault of zeros are "no fault". The strings are constant. These two calls are C, and not proved. */
const char *upc_strerror(const upc_fault *fault);
const char *upc_kind_name(uint32_t kind);

/* ---- A meter on the caller's state (no call allocates) ---- */

/* The greatest increment, limit and burst tolerance, the last moment, and the greatest level, in ticks. */
#define UPC_MOST_TICKS ((uint64_t)1 << 48)
#define UPC_LAST_MOMENT ((uint64_t)1 << 62)
#define UPC_LAST_LEVEL (((uint64_t)1 << 62) + ((uint64_t)1 << 49))

/* The kinds of contract (docs/CONTRACTS.md). */
enum upc_contract_kind { UPC_CBR1 = 1, UPC_VBR1 = 2, UPC_VBR2 = 3, UPC_VBR3 = 4 };

/* A contract: a kind, and an increment (1 to UPC_MOST_TICKS) and a limit (0 to UPC_MOST_TICKS) for each of its buckets.
 * CBR.1 has no bucket 2, and its last two numbers are free. */
typedef struct upc_contract {
	uint32_t kind;                /* one of enum upc_contract_kind */
	uint64_t peak_increment;      /* bucket 1, the peak cell rate */
	uint64_t peak_limit;
	uint64_t sustained_increment; /* bucket 2, the sustainable cell rate */
	uint64_t sustained_limit;
} upc_contract;
UPC_SIZE(upc_contract, 40);

/* The state of one contract: the theoretical arrival times of its buckets, in ticks. Both are 0 before the first cell. */
typedef struct upc_levels {
	uint64_t first;
	uint64_t second;
} upc_levels;
UPC_SIZE(upc_levels, 16);

/* A contract with its levels. A bucket with the theoretical arrival time t has, at a moment m, the level t - m, or 0 if m
 * is later than t; a cell conforms to it if that is at most the limit. */
typedef struct upc_meter {
	upc_contract contract;
	upc_levels levels;
} upc_meter;
UPC_SIZE(upc_meter, 56);

/* By how much a cell comes too early. */
typedef struct upc_excess {
	uint32_t bucket; /* the first bucket that the cell meets and doesn't conform to, 1 or 2; 0 if there is none */
	uint64_t ticks;  /* how far its level is above its limit: the least delay after which it would conform; or 0 */
} upc_excess;
UPC_SIZE(upc_excess, 16);

/* Only a card gives UPC_REFUSE: the program's value was not the number of a contract. */
enum upc_verdict { UPC_PASS = 0, UPC_TAG = 1, UPC_DISCARD = 2, UPC_REFUSE = 3 };

/* Tests whether the numbers are a contract.
 * Faults: UPC_UNKNOWN_KIND, then those of UPC_GCRA of the first faulty bucket. */
uint32_t upc_contract_check(const upc_contract *contract, upc_fault *fault) UPC_RESULT;

/* Judges a cell of cell loss priority 0, or of 1 if clp is any other number, at a moment of at most UPC_LAST_MOMENT
 * ticks. *verdict becomes UPC_PASS, UPC_TAG or UPC_DISCARD, and *levels the levels after the cell. The moments of the
 * cells of one upc_levels don't go back: a cell that comes before another is still judged, but not as by I.371.
 * Faults: those of upc_contract_check, then UPC_LATE_LEVELS, then UPC_ARRIVE_MOMENT_TOO_LATE. */
uint32_t upc_judge(const upc_contract *contract, upc_levels *levels, uint32_t clp, uint64_t moment, uint32_t *verdict,
                   upc_fault *fault) UPC_RESULT;

/* Writes by how much such a cell would come too early. Zeros exactly if upc_judge would pass it. Changes no levels.
 * Faults: those of upc_judge. */
uint32_t upc_excess_of(const upc_contract *contract, const upc_levels *levels, uint32_t clp, uint64_t moment,
                       upc_excess *excess, upc_fault *fault) UPC_RESULT;

/* The burst tolerance (mbs - 1)(sustained - peak) in ticks, for a burst of mbs cells and the increments of two rates.
 * Faults: those of UPC_BURST. */
uint32_t upc_burst_tolerance(uint64_t mbs, uint64_t sustained_increment, uint64_t peak_increment, uint64_t *ticks,
                             upc_fault *fault) UPC_RESULT;

/* ---- Cells (no call allocates) ---- */

enum { UPC_CELL_OCTETS = 52 };

/* The interface of a header: the user network interface, or that between nodes of the network. On a card of UPC_UNI_PATHS
 * or UPC_NNI_PATHS each connection is a virtual path with the cells of all its channels. Its calls take channel 0 for it;
 * a connection set up there on another channel gets no cells. */
enum upc_side { UPC_UNI = 0, UPC_NNI = 1, UPC_UNI_PATHS = 2, UPC_NNI_PATHS = 3 };

/* The fields of a header. */
typedef struct upc_fields {
	uint16_t vpi; /* virtual path, 0 to 255 (UPC_UNI, UPC_UNI_PATHS) or 0 to 4095 (UPC_NNI, UPC_NNI_PATHS) */
	uint16_t vci; /* virtual channel, at each side that of the header */
	uint8_t gfc;  /* generic flow control, 0 to 15; 0 at UPC_NNI and UPC_NNI_PATHS */
	uint8_t pti;  /* payload type, 0 to 7 */
	uint8_t clp;  /* cell loss priority, 0 or 1 */
} upc_fields;
UPC_SIZE(upc_fields, 8);

/* Reads the VPI, VCI and other fields of the cell with these 52 octets.
 * Faults: UPC_CELL_WRONG_LENGTH, then UPC_UNKNOWN_SIDE. */
uint32_t upc_cell_fields(const uint8_t *octets, size_t length, uint32_t side, upc_fields *fields,
                         upc_fault *fault) UPC_RESULT;

/* Tags the cell with these 52 octets: its cell loss priority becomes 1. Faults: UPC_CELL_WRONG_LENGTH. */
uint32_t upc_cell_tag(uint8_t *octets, size_t length, upc_fault *fault) UPC_RESULT;

/* ---- Programs in octets (memory) ---- */

/* Tests whether octets are a program that the check accepts. Faults: those of UPC_DECODE, then those of UPC_VERIFY. */
uint32_t upc_check(const uint8_t *program, size_t length, upc_fault *fault) UPC_RESULT;

/* Writes the octets of the code that a source means into the room, and their number into *count. Doesn't check the
 * code.
 * Faults: those of UPC_ASM, then UPC_NO_ROOM. */
uint32_t upc_assemble(const uint8_t *source, size_t source_length, uint8_t *room, size_t room_length, size_t *count,
                      upc_fault *fault) UPC_RESULT;

/* Writes the listing of the code that octets spell, which upc_assemble reads again, into the room, and its number of
 * octets into *count. The code needn't pass the check, but its jumps lead to places of the code.
 * Faults: those of UPC_DECODE, then UPC_VERIFY_JUMP_OUTSIDE, then UPC_NO_ROOM. */
uint32_t upc_listing(const uint8_t *program, size_t length, uint8_t *room, size_t room_length, size_t *count,
                     upc_fault *fault) UPC_RESULT;

/* ---- Rules for classes of cells (memory) ---- */

/* Compiles a text of rules (docs/RULES.md): writes the octets of a program into the room, and their number into *count.
 * The check accepts the program, and it gives each cell the value of the rules.
 * Faults: the first of UPC_RULES in the text, then UPC_RULES_TOO_LONG, then UPC_NO_ROOM. */
uint32_t upc_rules_compile(const uint8_t *rules, size_t rules_length, uint8_t *room, size_t room_length, size_t *count,
                           upc_fault *fault) UPC_RESULT;

/* ---- A program that the library stores (memory) ---- */

/* A program, or none: all zeros are none, as in `upc_program p = {0, 0};`. Only these calls fill it: its owner neither
 * reads nor writes its members and makes no second copy, and frees the program before the upc_program is gone. It may
 * be moved to another place, but the earlier place is then used no more. */
typedef struct upc_program {
	uint32_t live;
	void *at;
} upc_program;
UPC_SIZE(upc_program, 16);

/* Makes the program that octets spell, if there is none yet. Faults: UPC_PROGRAM_THERE, then those of upc_check. */
uint32_t upc_program_new(const uint8_t *octets, size_t length, upc_program *program, upc_fault *fault) UPC_RESULT;

/* Runs the program on the cell with these 52 octets: *value becomes its value, and *steps the number of instructions
 * that it began. It doesn't allocate.
 * Faults: UPC_CELL_WRONG_LENGTH, then UPC_NO_PROGRAM. */
uint32_t upc_program_run(const upc_program *program, const uint8_t *octets, size_t length, uint32_t *value, uint32_t *steps,
                         upc_fault *fault) UPC_RESULT;

/* Frees the program, so that there is none. Does nothing if there is none, or the pointer is null. */
void upc_program_free(upc_program *program);

/* ---- A card (memory) ---- */

/* A card with programs and connections, which judges each cell on the connection that its header names; or none: all
 * zeros are none, as in `upc_card c = {0, 0};`. As with a upc_program, only these calls fill it, it has no second copy,
 * it may be moved, and its owner frees it before its memory goes out of scope. A card serves one caller at a time. For more, give each thread a
 * card of its own, with a part of the connections, as in examples/c/threads.c. */
typedef struct upc_card {
	uint32_t live;
	void *at;
} upc_card;
UPC_SIZE(upc_card, 16);

/* The size of a card. */
typedef struct upc_shape {
	uint32_t side;     /* one of enum upc_side: the header of its cells */
	uint64_t programs; /* the most programs that it holds, 1 to 1024 */
	uint64_t lines;    /* the most connections that it has, 1 to 4096 */
	uint64_t ports;    /* 1 to 16; the calls below use one */
	uint64_t journal;  /* the most cells of a connection between two cuts, 1 to 65536 */
} upc_shape;
UPC_SIZE(upc_shape, 40);

/* The name of a program on a card. No other program of that card ever has the same. */
typedef struct upc_id {
	uint16_t slot;
	uint32_t generation;
} upc_id;
UPC_SIZE(upc_id, 8);

/* The answer to a judged cell. A line is a part of the card that serves one connection at a time. Its counts go on when it serves another. */
typedef struct upc_answer {
	uint32_t verdict; /* one of enum upc_verdict */
	uint32_t value;   /* the value of the program: the number of a contract, from 1, or any other, which names none */
	uint64_t number;  /* the number of cells with this verdict that were judged on the line, this one included */
	uint64_t moment;  /* the moment at which the cell arrived, in ticks */
	upc_id program;   /* the program that gave the value */
	uint16_t line;    /* the number of the line, from 0 */
} upc_answer;
UPC_SIZE(upc_answer, 40);

/* The number of cells of each verdict that were judged on a line since the card was made. */
typedef struct upc_counts {
	uint64_t passed;
	uint64_t tagged;
	uint64_t discarded;
	uint64_t refused;
} upc_counts;
UPC_SIZE(upc_counts, 32);

/* A judged cell of a journal. */
typedef struct upc_entry {
	uint64_t moment;  /* the moment at which the cell arrived, in ticks */
	upc_id program;   /* the program that gave the value */
	uint32_t value;   /* the value of the program: the number of a contract, from 1, or any other, which names none */
	uint32_t clp;     /* its cell loss priority before it was judged, 0 or 1 */
	uint32_t verdict; /* one of enum upc_verdict */
} upc_entry;
UPC_SIZE(upc_entry, 32);

/* The part of a connection's journal that a release or a cut returns in addition to its entries. */
typedef struct upc_journal {
	size_t cells;      /* the cells judged since the last cut, or since the connection was set up */
	upc_counts before; /* the counts of its line before the first of them */
	upc_counts after;  /* and after the last */
} upc_journal;
UPC_SIZE(upc_journal, 72);

enum { UPC_MOST_CONTRACTS = 4 };

/* The state of a connection, in addition to its contracts and their levels. */
typedef struct upc_state {
	uint64_t incarnation; /* the number of its setup among all of the card, from 1 */
	uint64_t last;        /* the moment of its last judged cell, in ticks; 0 if there was none */
	size_t cells;         /* the number of cells in its journal */
	size_t contracts;     /* the number of its contracts, 1 to UPC_MOST_CONTRACTS */
	upc_counts counts;    /* of its line */
	upc_id program;       /* the program that names a contract for each of its cells */
	uint16_t line;        /* the number of its line, from 0 */
} upc_state;
UPC_SIZE(upc_state, 80);

/* A connection from which the next one is found. All zeros are before the first. */
typedef struct upc_cursor {
	uint32_t begun; /* 0 before the first connection; the other two may then be anything */
	uint16_t path;
	uint16_t channel; /* 0 for a virtual path */
} upc_cursor;
UPC_SIZE(upc_cursor, 8);

/* Makes a card without programs and connections, if there is none yet.
 * Faults: UPC_CARD_THERE, then UPC_UNKNOWN_SIDE, then those of UPC_SHAPE. */
uint32_t upc_card_new(const upc_shape *shape, upc_card *card, upc_fault *fault) UPC_RESULT;

/* Frees the card, with its programs and connections, so that there is none. Does nothing if there is none, or the pointer
 * is null. */
void upc_card_free(upc_card *card);

/* Writes the size of the card. It doesn't allocate. Faults: UPC_NO_CARD. */
uint32_t upc_card_shape(const upc_card *card, upc_shape *shape, upc_fault *fault) UPC_RESULT;

/* Loads the program that octets spell; *id becomes its name.
 * Faults: those of upc_check, then UPC_NO_CARD, then UPC_DESK_PROGRAMS_FULL. */
uint32_t upc_card_load(upc_card *card, const uint8_t *octets, size_t length, upc_id *id, upc_fault *fault) UPC_RESULT;

/* Retires a program that no connection names. It doesn't allocate.
 * Faults: UPC_NO_CARD, then UPC_DESK_NO_PROGRAM, UPC_DESK_IN_USE. */
uint32_t upc_card_retire(upc_card *card, const upc_id *program, upc_fault *fault) UPC_RESULT;

/* Sets up a connection on this path and channel, which is 0 for a virtual path. For each of its cells the program names
 * one of the one to four contracts, the first by 1.
 * Faults: UPC_MANY_CONTRACTS, then those of upc_contract_check of the first faulty contract, then UPC_NO_CARD,
 * UPC_LARGE_PATH, then UPC_DESK_NO_PROGRAM, UPC_DESK_TAKEN, UPC_DESK_BAD_CONTRACTS (there is none), UPC_DESK_NO_LINE,
 * UPC_DESK_EXHAUSTED. */
uint32_t upc_card_setup(upc_card *card, uint16_t path, uint16_t channel, const upc_id *program,
                        const upc_contract *contracts, size_t count, upc_fault *fault) UPC_RESULT;

/* Gives a connection another program; *earlier becomes the one that it had. Its buckets and its journal are unchanged.
 * It doesn't allocate.
 * Faults: UPC_NO_CARD, UPC_LARGE_PATH, then UPC_DESK_NO_PROGRAM, UPC_DESK_NO_CONNECTION. */
uint32_t upc_card_reload(upc_card *card, uint16_t path, uint16_t channel, const upc_id *program, upc_id *earlier,
                         upc_fault *fault) UPC_RESULT;

/* Writes the number of cells in the journal of a connection: a release or a cut writes as many entries. It doesn't
 * allocate.
 * Faults: UPC_NO_CARD, UPC_LARGE_PATH, then UPC_DESK_NO_CONNECTION. */
uint32_t upc_card_journal(const upc_card *card, uint16_t path, uint16_t channel, size_t *cells,
                          upc_fault *fault) UPC_RESULT;

/* Writes the counts of a connection's line. It doesn't allocate.
 * Faults: UPC_NO_CARD, UPC_LARGE_PATH, then UPC_DESK_NO_CONNECTION. */
uint32_t upc_card_counts(const upc_card *card, uint16_t path, uint16_t channel, upc_counts *counts,
                         upc_fault *fault) UPC_RESULT;

/* Writes the state of a connection. Its contracts with their levels become the first meters of the room, the first for the
 * value 1; the other meters of the room are unchanged. A room of UPC_MOST_CONTRACTS is always enough. It doesn't allocate.
 * Faults: UPC_NO_CARD, UPC_LARGE_PATH, then UPC_DESK_NO_CONNECTION, then UPC_NO_ROOM. */
uint32_t upc_card_state(const upc_card *card, uint16_t path, uint16_t channel, upc_meter *room, size_t room_length,
                        upc_state *state, upc_fault *fault) UPC_RESULT;

/* Moves the cursor to the next connection, in the order of paths and, in a path, of channels. It need not be at a connection
 * of the card, and the card may change between two calls. It doesn't allocate. Looks at each line of the card.
 * Faults: UPC_NO_CARD, UPC_LARGE_PATH, then UPC_DESK_NO_CONNECTION if there is no other connection. */
uint32_t upc_card_next(const upc_card *card, upc_cursor *cursor, upc_fault *fault) UPC_RESULT;

/* Ends a connection, and returns its last journal: its cells, the earliest first, become the first entries of the room.
 * The other entries of the room are unchanged, and *journal has the number of cells. It doesn't allocate. A room of
 * length 0 is enough for an empty journal. If the room is too small, the connection continues, and the fault's place is
 * the number of entries that are needed.
 * Faults: UPC_NO_CARD, UPC_LARGE_PATH, then UPC_DESK_NO_CONNECTION, then UPC_NO_ROOM. */
uint32_t upc_card_release(upc_card *card, uint16_t path, uint16_t channel, upc_entry *room, size_t room_length,
                          upc_journal *journal, upc_fault *fault) UPC_RESULT;

/* Returns a connection's journal in the same way, and empties it. The connection continues: its buckets and its last
 * moment are unchanged.
 * Faults: UPC_NO_CARD, UPC_LARGE_PATH, then UPC_DESK_NO_CONNECTION, then UPC_NO_ROOM. */
uint32_t upc_card_cut(upc_card *card, uint16_t path, uint16_t channel, upc_entry *room, size_t room_length,
                      upc_journal *journal, upc_fault *fault) UPC_RESULT;

/* Judges the cell with these 52 octets, which arrived at this moment, on the connection that its header names, and
 * writes its answer. If the verdict is UPC_TAG, the octets become the tagged cell. It doesn't allocate. If it refuses,
 * the card is unchanged.
 * Faults: UPC_CELL_WRONG_LENGTH, then UPC_NO_CARD, then UPC_ARRIVE_NO_CONNECTION, UPC_ARRIVE_MOMENT_TOO_LATE,
 * UPC_ARRIVE_MOMENT_BACK, UPC_ARRIVE_JOURNAL_FULL. */
uint32_t upc_card_arrive(upc_card *card, uint8_t *octets, size_t length, uint64_t moment, upc_answer *answer,
                         upc_fault *fault) UPC_RESULT;

/* Judges `count` cells one after another, as that many calls of upc_card_arrive do. Cell k, from 0, has the 52 octets from
 * octets[k * stride] on, and arrived at moments[k]; its answer becomes answers[k]. A stride of UPC_CELL_OCTETS is that of cells
 * without a gap; if it is less, cells overlap, and each is judged as the one before it left the octets. Stops at the first cell
 * that isn't judged, because upc_card_arrive would return a fault: that cell and the later ones change nothing. A cell with
 * the verdict UPC_REFUSE is judged, and stops nothing. *done becomes the number of judged cells, also if the call
 * refuses, unless a pointer is null. It doesn't allocate.
 * Faults: UPC_NO_ROOM if there are fewer than `count` answers, and then no cell is judged; else those of upc_card_arrive for cell
 * *done. If some of its octets are beyond the end of the buffer, that is UPC_CELL_WRONG_LENGTH, with the number of octets that remain. */
uint32_t upc_card_arrive_many(upc_card *card, uint8_t *octets, size_t length, size_t stride, const uint64_t *moments, size_t count,
                              upc_answer *answers, size_t answers_length, size_t *done, upc_fault *fault) UPC_RESULT;

#undef UPC_RESULT
#undef UPC_SIZE

#ifdef __cplusplus
}
#endif

#endif
