"""Cells as words of hexadecimal digits."""

from policer.cell import has_paths


def digits(rng, octets):
    """The octets in hexadecimal, of lower, upper or both cases."""
    word = octets.hex()
    way = rng.random()
    if way < 0.8:
        return word.encode()
    if way < 0.9:
        return word.upper().encode()
    return "".join(rng.choice((digit, digit.upper())) for digit in word).encode()


def header(rng, path, channel, priority, side):
    """Four octets with this path, channel and priority, and anything in the other fields. Where connections are paths, any channel."""
    if has_paths(side):
        channel = rng.choice((0, 3, 4, 5, 100, 65535, rng.randrange(65536)))
    number = path << 20 | channel << 4 | rng.randrange(8) << 1 | priority
    if side.startswith("uni"):
        number |= rng.choice((0, 0, rng.randrange(16))) << 28
    return number.to_bytes(4, "big")


def cell(rng, head, first=None):
    """A whole cell after its header, whose payload begins with an octet."""
    payload = bytearray(rng.getrandbits(8) for _ in range(48)) if rng.random() < 0.7 else bytearray(48)
    if first is not None:
        payload[0] = first
    return head + bytes(payload)


def wrong(rng):
    """A word that is no cell: of another length, or no digits."""
    way = rng.random()
    if way < 0.5:
        return digits(rng, bytes(rng.randrange(256) for _ in range(rng.choice((1, 2, 3, 5, 8, 51, 53, 55, 104)))))
    if way < 0.7:
        return digits(rng, bytes(rng.randrange(256) for _ in range(56)))[: rng.randrange(1, 111)]
    word = bytearray(digits(rng, bytes(rng.randrange(256) for _ in range(rng.choice((4, 52))))))
    word[rng.randrange(len(word))] = rng.choice(b"gGxX/:@`.#\x80")
    return bytes(word)
