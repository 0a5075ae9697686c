"""Random lines of contracts: valid ones, near bounds, and some with a small change."""
UNITS = ("ns", "us", "ms", "s")


def near(source, value):
    """Returns the value, or one near it."""
    return max(0, value + source.choice([0, 0, 0, -1, 1]))


def a_rate(source):
    """Returns the spelling of a rate."""
    kind = source.random()
    if kind < 0.5:
        return str(int(10 ** source.uniform(1, 6)))
    if kind < 0.65:
        return str(near(source, source.choice([0, 1, 100, 101, 9900, 10000, 353207, 366792, 10 ** 9, 2 ** 63, 2 ** 64 - 1])))
    if kind < 0.7:
        return str(int(10 ** source.uniform(0, 9.5)))
    millions = source.choice([0, 2, 34, 149, 149, 599, int(10 ** source.uniform(0, 7)), 18446744073709])
    if source.random() < 0.3:
        return f"{millions}Mbit/s"
    digits = "".join(source.choice("0123456789") for _ in range(source.choice([1, 2, 2, 3, 3, 5, 6, 6, 7])))
    return f"{millions}.{digits}Mbit/s"


def a_time(source, most):
    """Returns the spelling of a time of up to ten to this power of nanoseconds."""
    unit = source.randrange(4)
    count = near(source, source.choice([0, 1, 1, 10, 50, 1000, int(10 ** source.uniform(0, max(0.5, most - 3 * unit)))]))
    return f"{count}{UNITS[unit]}"


def a_tick(source):
    """Returns the spelling of a tick."""
    if source.random() < 0.7:
        return source.choice(["1ns", "1ns", "10ns", "10ns", "100ns", "100ns", "1us", "1us", "1us", "10us", "100us", "1ms", "1s"])
    return a_time(source, 9)


def a_number(source):
    """Returns the spelling of a maximum burst size."""
    return str(near(source, source.choice([0, 1, 2, 32, 200, 2 ** 32, 2 ** 48, 2 ** 64 - 1, int(10 ** source.uniform(0, 15))])))


def changed(source, line):
    """Returns the line with one small change."""
    words = line.split(" ")
    at = source.randrange(len(words))
    kind = source.randrange(5)
    if kind == 0:
        del words[at]
    elif kind == 1:
        words.insert(at, source.choice(words))
    elif kind == 2:
        words[at] = words[at][:-1] or "s"
    elif kind == 3:
        words[at] += source.choice(["0", "s", "x", ".", "."])
    else:
        words[at] = source.choice(["pcr", "scr", "7", "7us", "1.5", "1.5Mbit/s", ".5Mbit/s", "5.Mbit/s", "#", "cbr1", "-1", "us"])
    return " ".join(words)


def a_line(source):
    """Returns a line."""
    if source.random() < 0.02:
        return source.choice(["", "  ", "# pcr", "cbr1", "cbr2 pcr 1 cdvt 1s tick 1s"])
    ends = f"cdvt {a_time(source, 12)} tick {a_tick(source)}"
    if source.random() < 0.4:
        line = f"cbr1 pcr {a_rate(source)} {ends}"
    else:
        rates = [a_rate(source), a_rate(source)]
        if source.random() < 0.7 and all(it.isdigit() for it in rates):
            rates.sort(key=int, reverse=True)
        line = f"vbr{source.choice('123')} pcr {rates[0]} scr {rates[1]} mbs {a_number(source)} {ends}"
    line = changed(source, line) if source.random() < 0.15 else line
    return line.replace(" ", source.choice([" ", " ", " ", "\t", "  "]))


def text_of(source, lines):
    """Returns an input of this many lines."""
    return "".join(a_line(source) + source.choice(["\n", "\n", "\n", "\r\n"]) for _ in range(lines)).encode()
