"""The scenes: each gives the lines of a script for `run` or for `ports`."""

# `ret #1`, and a program that names contract 1 for user data and contract 2 for OAM cells.
ALWAYS_1 = "0006000000000001"
BY_CLASS = "0030000000000003005400000000000e003501000000000800060000000000010006000000000002"

CONTRACTS = ("cbr1:10/5", "vbr1:5/0:20/20", "vbr2:5/0:20/20", "vbr3:5/0:20/20")

MOST_ENTRIES = 65536
MOST_LINES = 1000000


def numbers(seed):
    """Numbers below 2^15 that look random, the same on every machine."""
    while True:
        seed = (seed * 1103515245 + 12345) % 2**31
        yield seed // 2**16


def header(vpi, vci, payload_type=0, priority=0):
    """The header of a cell at the side of users."""
    return "%08x" % (vpi << 20 | vci << 4 | payload_type << 1 | priority)


def connections(subcommand):
    """4096 connections, one more that finds no line, and 65,536 cells, 16 of each; then, by `run` alone, each is cut and released.

    By `ports` cuts and releases come before the cells; beside them the order of answers would be open: each connection is cut,
    released and set up again.
    """
    names = ["%d %d" % (k % 256, 32 + k // 256) for k in range(4096)]
    yield "card 1 4096 16 16"
    yield "load " + ALWAYS_1
    yield from ("setup %s p1 cbr1:10/0" % name for name in names)
    yield "setup 0 31 p1 cbr1:10/0"
    if subcommand == "ports":
        for command in ("cut %s", "release %s", "setup %s p1 cbr1:10/0"):
            yield from (command % name for name in names)
    for turn in range(16):
        for k in range(4096):
            yield "cell %d %s" % (7 * turn + k % 5, header(k % 256, 32 + k // 256))
    if subcommand == "run":
        for command in ("cut %s", "cut %s", "release %s"):
            yield from (command % name for name in names)


def journal(subcommand):
    """A journal of 65,536 cells, and a cell that finds it full; by `run` a cut counts them all."""
    yield "card 1 1 16 %d" % MOST_ENTRIES
    yield "load " + ALWAYS_1
    yield "setup 1 100 p1 vbr3:5/0:20/20"
    for moment in range(0, 3 * MOST_ENTRIES, 3):
        yield "cell %d %s" % (moment, header(1, 100))
    yield "cell %d %s" % (3 * MOST_ENTRIES, header(1, 100))
    if subcommand == "run":
        yield "cut 1 100"
        yield "cell %d %s" % (3 * MOST_ENTRIES, header(1, 100))
        yield "release 1 100"


def cells(_subcommand):
    """100,000 cells of 64 connections over 16 ports, in a script of two million octets."""
    yield "card 1 64 16 4096"
    yield "load " + BY_CLASS
    for k in range(64):
        yield "setup %d %d p1 %s %s" % (k, 100 + k, CONTRACTS[k % 4], CONTRACTS[(k + 1) % 4])
    random = numbers(1)
    for moment in range(100000):
        k = next(random) % 64
        kind = next(random)
        yield "cell %d %s" % (moment // 7, header(k, 100 + k, kind % 8, kind // 8 % 2))


def programs(_subcommand):
    """10,000 programs that are put in and taken out, a cell beside each; the 10,001st program stays."""
    yield "card 2 16 16 1024"
    yield "load " + ALWAYS_1
    for k in range(16):
        yield "setup %d 100 p1 cbr1:10/5" % k
    for k in range(10000):
        yield "load %016x" % (0x0006000000000000 + k)
        yield "cell %d %s" % (k // 3, header(k % 16, 100))
        yield "retire p%d" % (k + 2)
    yield "load " + ALWAYS_1


def slots(_subcommand):
    """1024 programs, one more that finds no slot, and a cell judged by each."""
    yield "card 1024 1024 16 16"
    for k in range(1025):
        yield "load %016x" % (0x0006000000000001 + k % 4)
    for k in range(1024):
        yield "setup %d %d p%d %s" % (k % 256, 32 + k // 256, k + 1, " ".join(CONTRACTS))
    for k in range(1024):
        yield "cell %d %s" % (k, header(k % 256, 32 + k // 256))


def million(_subcommand):
    """1,000,000 lines: 60,000 commands before the first cell, then cells that all go to one port, with a command after each 31 of
    them, and words of 60,001 digits. No command after the first cell is of a connection with cells."""
    yield "card 2 17 16 %d" % MOST_ENTRIES
    yield "load " + ALWAYS_1
    for k in range(16):
        yield "setup 1 %d p1 %s" % (16 * (k + 2), CONTRACTS[k % 4])
    yield "setup 2 32 p1 cbr1:10/5"
    given = 19
    for _ in range(60000):
        yield "reload 2 32 p1"
    given += 60000
    random, moment = numbers(2), 0
    while given < MOST_LINES:
        if given % 32 == 0:
            yield "load " + "0" * 60001 if given % 65536 == 0 else "reload 2 32 p%d" % (given // 32 % 2 + 1)
        else:
            kind = next(random)
            moment += kind % 3
            yield "cell %d %s" % (moment, header(1, 16 * (given % 16 + 2), kind % 8, kind // 8 % 2))
        given += 1


SCENES = {
    "connections": connections,
    "journal": journal,
    "cells": cells,
    "programs": programs,
    "slots": slots,
    "million": million,
}
