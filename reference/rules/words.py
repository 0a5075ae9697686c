"""What the table of words in docs/RULES.md says that they hold of, beside the program and beside tcpdump."""
import os
import random
import re
import struct
import subprocess
import tempfile

from policer.decoding import decoded
from policer.machine import value_and_steps

from rules.meaning import value_of
from rules.reader import read_rules

PAGE = os.path.join(os.path.dirname(os.path.realpath(__file__)), "..", "..", "docs", "RULES.md")
# The header of a capture of SunATM without packets.
SUN_ATM = struct.pack("<IHHiIII", 0xA1B2C3D4, 2, 4, 0, 0, 65535, 123)


def table():
    """Yields the rows: the words, what they hold of here, tcpdump's word and what that holds of."""
    with open(PAGE, encoding="utf-8") as page:
        lines = page.read().split("\n")
    at = lines.index("| Word | Holds of | As here | As tcpdump has it |") + 2
    while lines[at].startswith("|"):
        words, _, here, theirs = (re.findall(r"`([^`]*)`", cell) for cell in lines[at].split("|")[1:5])
        yield words, here[0], theirs
        at += 1


def headers():
    """Yields headers with each VCI up to 40, each PTI and CLP, in some paths, and random ones."""
    source = random.Random(1)
    for path in (0, 1, 16, 255):
        for channel in (*range(41), 0x103, 0xFFFF):
            for low in range(16):
                yield path << 20 | channel << 4 | low
    for _ in range(2000):
        yield source.getrandbits(32)


def values(text):
    """Returns the values of rules on cells with these headers, as the reference has them."""
    reader = read_rules(text.encode())
    return [value_of(reader, header.to_bytes(4, "big") + bytes(48)) for header in headers()]


def values_here(program, text):
    """Returns the same values by the code that the program makes."""
    ran = subprocess.run([program, "rules"], input=text.encode(), stdout=subprocess.PIPE, stderr=subprocess.DEVNULL, check=False)
    lines = ran.stdout.decode().split("\n")
    if not lines[0].startswith("accepted"):
        return lines[0]
    code = decoded(bytes.fromhex(lines[1]))
    return [value_and_steps(code, header.to_bytes(4, "big") + bytes(48))[0] for header in headers()]


def values_there(word):
    """Returns the same values by the code that tcpdump makes of its word: it is run on the octets of SunATM, flags, VPI and VCI."""
    with tempfile.NamedTemporaryFile(suffix=".pcap") as capture:
        capture.write(SUN_ATM)
        capture.flush()
        ran = subprocess.run(["tcpdump", "-r", capture.name, "-ddd", word], stdout=subprocess.PIPE, stderr=subprocess.DEVNULL, check=True)
    rows = [[int(it) for it in line.split()] for line in ran.stdout.decode().split("\n")[1:] if line]
    code = decoded(b"".join(struct.pack(">HBBI", *row) for row in rows))
    found = []
    for header in headers():
        packet = bytes([0, header >> 20 & 0xFF]) + (header >> 4 & 0xFFFF).to_bytes(2, "big") + bytes(48)
        found.append(min(value_and_steps(code, packet)[0], 1))
    return found


def outcomes(program, with_tcpdump):
    """Yields for each word, and for each of tcpdump's if that is there, its name and whether it is as the table has it."""
    for words, here, theirs in table():
        wanted = values(f"{here} -> 1\n")
        for word in words:
            yield f"{word} here", values_here(program, f"{word} -> 1\n") == wanted == values(f"{word} -> 1\n")
        if theirs and with_tcpdump:
            yield f"{theirs[0]} of tcpdump", values_there(theirs[0]) == values(f"{theirs[1]} -> 1\n")
