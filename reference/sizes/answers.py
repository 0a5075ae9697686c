"""The answer lines."""
from math import floor

from policer.faults import Fault
from policer.text_lines import asks_nothing, limited_lines, words_of

from .buckets import better_tick, buckets, is_coarse
from .contract import SizeFault, read_contract

UNITS = ((10 ** 9, "s"), (10 ** 6, "ms"), (10 ** 3, "us"), (1, "ns"))


def shown_tick(nanoseconds):
    """Returns the spelling of a tick."""
    if nanoseconds is None:
        return "none"
    return next(f"{nanoseconds // size}{unit}" for size, unit in UNITS if nanoseconds >= size)


def shown_rate(name, bucket):
    """Returns the rate that a bucket polices, and by how much it is above the one asked for."""
    hundredths = floor(bucket.above() * 10000)
    return f" {name} {floor(bucket.policed())} +{hundredths // 100}.{hundredths % 100:02}%"


def answer(words):
    """Returns the answer to the words of a line."""
    try:
        kind, figures = read_contract(words)
        made = buckets(figures, figures["tick"])
    except SizeFault as fault:
        return fault.shown()
    parts = [kind] + [f":{bucket.increment}/{bucket.limit}" for bucket in made]
    parts += [shown_rate(name, bucket) for name, bucket in zip(("pcr", "scr"), made)]
    if is_coarse(made):
        parts.append(f" coarse {shown_tick(better_tick(figures))}")
    return "".join(parts)


def answers(text):
    """Yields the answer lines of an input."""
    try:
        for line in limited_lines(text):
            words = words_of(line)
            if not asks_nothing(words):
                yield answer(words)
    except Fault as fault:
        yield str(fault)
