"""Each fault of a script, as `upc-lab explain` explains it."""
from .case import check_variants, explained

# Lines without a fault: a card, a program and a connection.
OPENED = b"card 2 1 1 2\nload 0006000000000001\nsetup 1 100 p1 cbr1:10/5\n"

# A fault (a variant of `ScriptFault` of cmd_explain_script), lines after these, and the whole answer.
ON_A_CARD = (
    (
        "BadLine",
        b"setpu 1 2 p1 cbr1:1/1",
        b"fault script 1 BadLine\n"
        b"line 4 column 1: `setpu` is no command; perhaps `setup` is meant\n",
    ),
    (
        "BadLine",
        b"police 1 2",
        b"fault script 1 BadLine\n"
        b"line 4 column 1: `police` is no command; the commands are cell, load, retire, setup, reload, release and cut\n",
    ),
    (
        "BadLine",
        b"rules a.rules # voice",
        b"fault script 1 BadLine\n"
        b"line 4 column 1: `rules` is no command; a setup of `upc-lab police` has lines `rules NAME`, with nothing after the name\n",
    ),
    (
        "BadLine",
        b"at 5 retire p1",
        b"fault script 1 BadLine\n"
        b"line 4 column 1: `at` is no command; a setup of `upc-lab police` has lines `at TIME COMMAND`, as `at 5ms retire p1`\n",
    ),
    (
        "BadLine",
        b"\tcard 1 1 1 1",
        b"fault script 1 BadLine\n"
        b"line 4 column 2: the card is open already; a script opens one\n",
    ),
    (
        "BadHex",
        b"load 0",
        b"fault script 3 BadHex\n"
        b"line 4 column 6: this word is no octets; each octet is two hexadecimal digits\n",
    ),
    (
        "BadHex",
        b"cell 1 0g",
        b"fault script 3 BadHex\n"
        b"line 4 column 8: this word is no octets; each octet is two hexadecimal digits\n",
    ),
    (
        "WrongLength",
        b"cell 1 00",
        b"fault cell 1 WrongLength 1\n"
        b"line 4 column 8: a cell has 104 hexadecimal digits, or 8 for a header with a payload of zeros\n",
    ),
    (
        "ZeroIncrement",
        b"setup 1 2 p1 vbr2:0/1:0/1",
        b"fault gcra 1 ZeroIncrement\n"
        b"line 4 column 14: the bucket of the peak rate has the increment 0; an increment is 1 to 281474976710656 ticks\n",
    ),
    (
        "ZeroIncrement",
        b"setup 1 2 p1 cbr1:1/1 vbr1:1/1:0/1",
        b"fault gcra 1 ZeroIncrement\n"
        b"line 4 column 23: the bucket of the sustained rate has the increment 0; an increment is 1 to 281474976710656 ticks\n",
    ),
    (
        "LargeRate",
        b"setup 1 2 p1 cbr1:1/281474976710657",
        b"fault gcra 2 TooLarge\n"
        b"line 4 column 14: the bucket of this contract has a number above 281474976710656 ticks\n",
    ),
    (
        "Ragged",
        b"load 00",
        b"fault decode 1 Ragged\n"
        b"line 4 column 6: an instruction is 16 hexadecimal digits, and the last one has fewer\n",
    ),
    (
        "UnknownCode",
        b"load 00ff000000000000",
        b"fault decode 2 UnknownCode 0 00ff\n"
        b"line 4 column 6: no instruction has this code; `upc check` prints the octets of a source\n",
    ),
    (
        "BadScratch",
        b"load 00020000000000100006000000000001",
        b"fault verify 3 BadScratch 0\n"
        b"line 4 column 6: this instruction of the program, counted from 0, names a scratch word of 16 or above; there are M[0] to M[15]\n",
    ),
    (
        "ZeroDivisor",
        b"load 00340000000000000006000000000001",
        b"fault verify 4 ZeroDivisor 0\n"
        b"line 4 column 6: this instruction of the program, counted from 0, divides by the constant 0\n",
    ),
    (
        "BadShift",
        b"load 00640000000000200006000000000001",
        b"fault verify 5 BadShift 0\n"
        b"line 4 column 6: this instruction of the program, counted from 0, shifts by a constant of 32 or more\n",
    ),
    (
        "JumpOutside",
        b"load 00050000000000050006000000000001",
        b"fault verify 6 JumpOutside 0\n"
        b"line 4 column 6: this instruction of the program, counted from 0, jumps past the last one\n",
    ),
    (
        "NoReturn",
        b"load 0007000000000000",
        b"fault verify 7 NoReturn\n"
        b"line 4 column 6: the last instruction of the program is no return\n",
    ),
    (
        "Unwritten",
        b"load 00600000000000000016000000000000",
        b"fault verify 8 Unwritten 0 0\n"
        b"line 4 column 6: this instruction of the program, counted from 0, reads a scratch word that some path to it does not store; `upc-lab explain` of the source shows the path\n",
    ),
    (
        "NoProgram",
        b"retire p9",
        b"fault desk 1 NoProgram\n"
        b"line 4 column 8: no program has this name; the N-th program loaded is pN, and a retired one is gone\n",
    ),
    (
        "NoProgram",
        b"reload 1 100 p9",
        b"fault desk 1 NoProgram\n"
        b"line 4 column 14: no program has this name; the N-th program loaded is pN, and a retired one is gone\n",
    ),
    (
        "NoConnection",
        b"cut 2 2",
        b"fault desk 2 NoConnection\n"
        b"line 4 column 5: there is no such connection; `setup` makes one\n",
    ),
    (
        "Taken",
        b"setup 1 100 p1 cbr1:1/1",
        b"fault desk 3 Taken\n"
        b"line 4 column 7: there is such a connection already; `reload` gives it another program, and `release` ends it\n",
    ),
    (
        "NoLine",
        b"setup 1 101 p1 cbr1:1/1",
        b"fault desk 4 NoLine\n"
        b"line 4 column 1: each line of the card has a connection; `release` ends one\n",
    ),
    (
        "InUse",
        b"retire p1",
        b"fault desk 5 InUse\n"
        b"line 4 column 8: a connection names this program; `reload` or `release` the connection first\n",
    ),
    (
        "ProgramsFull",
        b"load 0006000000000001\n"
        b"load 0006000000000001",
        b"fault desk 6 ProgramsFull\n"
        b"line 5 column 1: the card has no room for a program; `retire` makes some\n",
    ),
    (
        "CellUnknown",
        b"cell 1 00200640",
        b"fault arrive 1 NoConnection\n"
        b"line 4 column 8: the connection in the header of this cell is not set up\n",
    ),
    (
        "MomentBack",
        b"cell 5 00100640\n"
        b"cell 4 00100640",
        b"fault arrive 4 MomentBack 5\n"
        b"line 5 column 6: this moment is before that of the last judged cell of the connection, which the fault names\n",
    ),
    (
        "MomentTooLate",
        b"cell 4611686018427387905 00100640",
        b"fault arrive 5 MomentTooLate\n"
        b"line 4 column 6: a moment is at most 4611686018427387904 ticks\n",
    ),
    (
        "JournalFull",
        b"cell 1 00100640\n"
        b"\n"
        b"cell 2 00100640\n"
        b"cell 3 00100640",
        b"fault arrive 6 JournalFull\n"
        b"line 7 column 1: the journal of the connection is full; `cut` empties it\n",
    ),
)

# The same for whole scripts, whose faults end the run.
OPENING = (
    (
        "NoCard",
        b"crad 1 1",
        b"fault script 2 NoCard\n"
        b"line 1 column 1: `crad` opens no card; perhaps `card` is meant\n",
    ),
    (
        "NoCard",
        b"ret #1",
        b"fault script 2 NoCard\n"
        b"line 1 column 1: `ret` opens no card; the first line with words is `card PROGRAMS LINES PORTS JOURNAL`, perhaps with a side\n",
    ),
    (
        "NoCard",
        b"tick 1us",
        b"fault script 2 NoCard\n"
        b"line 1 column 1: `tick` opens no card; a setup of `upc-lab police` may begin with one line `tick TIME`, as `tick 1us`\n",
    ),
    (
        "ManyPrograms",
        b"card 0 1 1 1",
        b"fault shape 1 Programs\n"
        b"line 1 column 6: a card is for 1 to 1024 programs\n",
    ),
    (
        "ManyLines",
        b"card 1 4097 1 1",
        b"fault shape 2 Lines\n"
        b"line 1 column 8: a card has 1 to 4096 lines, one for each connection\n",
    ),
    (
        "ManyPorts",
        b"card 1 1 17 1",
        b"fault shape 3 Ports\n"
        b"line 1 column 10: a card has 1 to 16 ports\n",
    ),
    (
        "LongJournal",
        b"card 1 1 1 65537",
        b"fault shape 4 Journal\n"
        b"line 1 column 12: a journal has room for 1 to 65536 cells between two cuts\n",
    ),
)

# The same for a program that is too long.
TOO_LONG = (
    "LongCode",
    b"load " + 4097 * b"0007000000000000",
    b"fault verify 2 TooLong\nline 4 column 6: a program has at most 4096 instructions\n",
)

# The faults that no script has, and why.
NEVER = {
    "Exhausted": "2^62 connections would have to be set up",
    "NoInstruction": "a word has a digit at least",
    "BadContracts": "a `setup` without a contract, or with five, is a BadLine",
    "Busy": "one line does all steps of a cell, so none is between look-up and judging",
    "CellReleased": "the same",
    "StaleLine": "it is proved impossible in `upc run` (docs/FORMATS.md)",
    "CellStale": "the same",
}


def cases():
    """Yields the explanation of each script."""
    rows = (*ON_A_CARD, TOO_LONG)
    check_variants("crates/cmd_explain_script/src/script_faults.rt", "ScriptFault", {label for label, _, _ in (*rows, *OPENING)}, NEVER)
    for _, lines, answer in rows:
        yield explained(OPENED + lines, answer)
    for _, script, answer in OPENING:
        yield explained(script, answer)
