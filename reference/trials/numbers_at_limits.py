"""Numbers near which something changes."""

WORD = 1 << 32

LIMITS = (0, 1, 2, 3, 4, 8, 15, 16, 31, 32, 33, 47, 48, 49, 50, 51, 52, 53, 127, 128, 255, 256, 4095, 4096)
LIMITS += (65535, 65536, 1 << 31, (1 << 31) - 1, WORD - 1, WORD - 2, WORD - 52)


def word(rng):
    """A number of 32 bits: near a limit, small, or any."""
    way = rng.random()
    if way < 0.5:
        return rng.choice(LIMITS)
    if way < 0.75:
        return rng.randrange(64)
    return rng.getrandbits(rng.randrange(1, 33))


def near(rng, limit, most):
    """A number about the limit, which is at least 0 and at most the greatest."""
    return min(most, max(0, limit + rng.choice((-1, 0, 0, 1))))
