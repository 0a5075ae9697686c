"""The structs of include/upc.h for ctypes."""

import ctypes
from ctypes import POINTER, c_size_t, c_uint8, c_uint16, c_uint32, c_uint64, c_void_p


def struct(name, **fields):
    """Makes a struct with these fields."""
    return type(name, (ctypes.Structure,), {"_fields_": list(fields.items())})


Fault = struct("Fault", kind=c_uint32, number=c_uint32, place=c_size_t, word=c_uint32, code=c_uint32, column=c_size_t)
Contract = struct("Contract", kind=c_uint32, peak_increment=c_uint64, peak_limit=c_uint64, sustained_increment=c_uint64, sustained_limit=c_uint64)
Levels = struct("Levels", first=c_uint64, second=c_uint64)
Meter = struct("Meter", contract=Contract, levels=Levels)
Excess = struct("Excess", bucket=c_uint32, ticks=c_uint64)
Fields = struct("Fields", vpi=c_uint16, vci=c_uint16, gfc=c_uint8, pti=c_uint8, clp=c_uint8)
Handle = struct("Handle", live=c_uint32, at=c_void_p)
Shape = struct("Shape", side=c_uint32, programs=c_uint64, lines=c_uint64, ports=c_uint64, journal=c_uint64)
Id = struct("Id", slot=c_uint16, generation=c_uint32)
Answer = struct("Answer", verdict=c_uint32, value=c_uint32, number=c_uint64, moment=c_uint64, program=Id, line=c_uint16)
Counts = struct("Counts", passed=c_uint64, tagged=c_uint64, discarded=c_uint64, refused=c_uint64)
State = struct("State", incarnation=c_uint64, last=c_uint64, cells=c_size_t, contracts=c_size_t, counts=Counts, program=Id, line=c_uint16)
Cursor = struct("Cursor", begun=c_uint32, path=c_uint16, channel=c_uint16)
Entry = struct("Entry", moment=c_uint64, program=Id, value=c_uint32, clp=c_uint32, verdict=c_uint32)
Journal = struct("Journal", cells=c_size_t, before=Counts, after=Counts)


def values_of(it):
    """Returns the values of a struct's fields, as tuples in each other."""
    found = (getattr(it, name) for name, _ in it._fields_)
    return tuple(values_of(value) if isinstance(value, ctypes.Structure) else value for value in found)


def octets(text):
    """Returns an array with these octets, which has at least one place."""
    return (c_uint8 * max(1, len(text)))(*text)


__all__ = ["Answer", "Contract", "Counts", "Cursor", "Entry", "Excess", "Fault", "Fields", "Handle", "Id", "Journal", "Levels", "Meter"]
__all__ += ["POINTER", "Shape", "State", "octets", "values_of"]
