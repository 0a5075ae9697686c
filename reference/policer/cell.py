"""A cell: 52 octets, of which the first four are the header without its check octet."""

OCTETS = 52
HEADER_OCTETS = 4

# The bits of a virtual path at each side: between nodes of the network there is no flow control.
PATH_BITS = {"uni": 8, "nni": 12, "uni paths": 8, "nni paths": 12}


def has_paths(side):
    """Whether connections are whole virtual paths. The channel of such a connection is 0, whatever those of its cells."""
    return side.endswith(" paths")


def channel_name(channel, side):
    """The channel as answers and tables have it."""
    return "*" if has_paths(side) else str(channel)


def connection_of(cell, side):
    """The virtual path and channel in the header, or the path and 0 where connections are paths.

    From the highest bit on: flow control (4 bits, at the side `uni` alone), path (8 bits, or 12 at `nni`),
    channel (16), payload type (3), cell loss priority (1).
    """
    header = int.from_bytes(cell[:HEADER_OCTETS], "big")
    path = (header >> 20) % (1 << PATH_BITS[side])
    channel = 0 if has_paths(side) else (header >> 4) % (1 << 16)
    return path, channel


def priority_of(cell):
    """Cell loss priority: 0, or 1 for a cell that is discarded first."""
    return cell[3] % 2


def tagged(cell):
    """The cell with cell loss priority 1."""
    return cell[:3] + bytes([cell[3] | 1]) + cell[4:]
