"""Random calls but those of a card, and what each has to answer."""

import ctypes
from collections import Counter

from policer import cell as cells
from policer.assembly.assembler import assembled
from policer.decoding import decoded, encoded
from policer.faults import Fault as ReferenceFault
from policer.instructions import targets
from policer.machine import value_and_steps
from rules.making import cells_for, text_of
from rules.meaning import value_of
from rules.reader import NAMES as RULES
from rules.reader import Fault as RulesFault
from rules.reader import read_rules
from trials import programs, sources

from library.model import LAST_MOMENT, Meter, Refused, checked, contract_of, refused_call, translated
from library.structs import Contract, Excess, Fault, Fields, Handle, Id, Levels, octets, values_of

MOST_TICKS, LAST_LEVEL = 2**48, 2**62 + 2**49
REACHED = Counter()


class Different(Exception):
    """The library answers otherwise than the model."""


def same(what, found, wanted):
    """Compares."""
    if found != wanted:
        raise Different(f"{what}: {found} and not {wanted}")


class Calls:
    """A sequence of calls on one program and one card. CardCalls has those of the card."""

    def __init__(self, library, rng):
        self.library, self.rng, self.made = library, rng, 0
        self.fault = Fault()
        self.held, self.program = Handle(), None
        self.card, self.model = Handle(), None
        self.ways = [getattr(self, name) for name in dir(self) if name.startswith("try_")]
        weights = {"try_arrive": 12, "try_many": 6, "try_setup": 4, "try_cut": 2, "try_inspect": 2, "try_state": 2, "try_load": 2, "try_run": 3, "try_judge": 4}
        self.weights = [weights.get(way.__name__, 1) for way in self.ways]

    def one(self):
        """Makes one call, or a few that belong together."""
        self.made += 1
        self.rng.choices(self.ways, self.weights)[0]()

    def end(self):
        """Frees what is left."""
        self.library.upc_program_free(ctypes.byref(self.held))
        self.library.upc_card_free(ctypes.byref(self.card))

    def call(self, name, wanted, *given):
        """Makes a call whose result and fault are to be those of `wanted`, None or a Refused. Returns whether it was none."""
        fault = None if self.rng.random() < 0.05 else ctypes.byref(self.fault)
        self.fault.kind = self.fault.number = 77
        result = getattr(self.library, name)(*given, fault)
        same(name, result, wanted.result if wanted else 0)
        if fault:
            same(f"{name}, the fault", values_of(self.fault), wanted.fault if wanted else (0,) * 6)
        REACHED[name, result] += 1
        return wanted is None

    def asked(self, name, model, *given):
        """Makes a call that has to answer as the model does. Returns what the model returns, or None if it refuses."""
        try:
            found, wanted = model(), None
        except Refused as refused:
            found, wanted = None, refused
        except ReferenceFault as fault:
            found, wanted = None, translated(fault)
        self.call(name, wanted, *given)
        return found if wanted is None else None

    def moved(self, handle):
        """Moves a handle to another place."""
        return Handle(handle.live, handle.at)

    # ---- what is random ----

    def number(self, most):
        """A number up to one above the most, often at an end."""
        return self.rng.choice((0, 1, most, most + 1, self.rng.randrange(most + 2), self.rng.randrange(200), self.rng.randrange(200)))

    def contract(self):
        """A contract, mostly with small numbers."""
        if self.rng.random() < 0.1:
            return Contract(self.rng.randrange(6), *(self.number(MOST_TICKS) for _ in range(4)))
        return Contract(self.rng.randrange(1, 5), *(self.rng.randrange(1, 40) for _ in range(4)))

    def code(self):
        """Octets of a program, or of what is nearly one."""
        way = self.rng.random()
        if way < 0.6:
            return encoded(programs.accepted(self.rng, self.rng.choice((1, 2, 3, 5, 12))))
        if way < 0.8:
            return b"".join(bytes((0, 6, 0, 0)) + self.rng.randrange(4).to_bytes(4, "big") for _ in range(1))
        if way < 0.95:
            return encoded(programs.broken(self.rng))
        return bytes(self.rng.randrange(256) for _ in range(self.rng.randrange(20)))

    def cell(self):
        """A cell, often of one of the connections."""
        head = bytearray(self.rng.randrange(256) for _ in range(52))
        if self.rng.random() < 0.95:
            known = list(self.model.connections) if self.model else []
            path, channel = self.rng.choice(known) if known and self.rng.random() < 0.9 else self.vc()
            side = 0 if self.model is None else self.model.shape[0]
            if side > 1:
                # The cells of a virtual path are of any channel.
                channel = self.rng.choice((0, 3, 4, 100, 65535))
            head[:4] = (path << 20 | channel << 4 | self.rng.randrange(16)).to_bytes(5, "big")[-4:]
            if side % 2 == 0:
                head[0] |= self.rng.randrange(16) << 4
        return bytes(head) if self.rng.random() < 0.97 else bytes(head) + bytes(self.rng.choice((1, 3)))

    def vc(self):
        """A path and a channel, of few."""
        return self.rng.choice((0, 1, 255) if self.rng.random() < 0.95 else (256, 4095, 4096)), self.rng.choice((0, 100, 65535))

    # ---- calls on no handle ----

    def try_contract(self):
        """upc_contract_check."""
        it = self.contract()
        self.asked("upc_contract_check", lambda: contract_of(it), ctypes.byref(it))

    def try_judge(self):
        """upc_excess_of and upc_judge, several times on one meter."""
        it, levels, verdict = self.contract(), Levels(), ctypes.c_uint32(9)
        if self.rng.random() < 0.1:
            levels = Levels(self.number(LAST_LEVEL), self.number(LAST_LEVEL))
        moment = self.rng.choice((0, self.number(LAST_MOMENT)))
        for _ in range(self.rng.randrange(1, 8)):
            moment += self.rng.choice((0, 1, 5, 30))
            clp = self.rng.choice((0, 0, 1, 2**32 - 1))

            def meter(moment=moment):
                kind, rates = contract_of(it)
                if levels.first > LAST_LEVEL or levels.second > LAST_LEVEL:
                    raise refused_call("LateLevels")
                if moment > LAST_MOMENT:
                    raise Refused("arrive", 5)
                return Meter(kind, rates, values_of(levels))

            def judged(moment=moment, clp=clp, meter=meter):
                return meter().judge(moment, int(clp != 0))

            def excess(moment=moment, clp=clp, meter=meter):
                return meter().excess(moment, int(clp != 0))

            before, reported = values_of(levels), Excess(7, 7)
            given = (ctypes.byref(it), ctypes.byref(levels), clp, ctypes.c_uint64(moment), ctypes.byref(reported))
            wanted = self.asked("upc_excess_of", excess, *given)
            same("upc_excess_of, the excess", values_of(reported), wanted or (7, 7))
            same("upc_excess_of, the levels", values_of(levels), before)
            wanted = self.asked("upc_judge", judged, ctypes.byref(it), ctypes.byref(levels), clp, ctypes.c_uint64(moment), ctypes.byref(verdict))
            if wanted is None:
                same("upc_judge, the levels", values_of(levels), before)
                return
            same("upc_judge, the verdict", verdict.value, wanted[0])
            # A bucket that the kind hasn't keeps its level, and one that isn't charged may show it at another moment.
            for bucket, level in enumerate(wanted[1]):
                shown = (levels.first, levels.second)[bucket]
                same("upc_judge, a level", max(shown, moment), max(level, moment))

    def try_burst(self):
        """upc_burst_tolerance."""
        cells_of, sustained, peak = self.number(1000), self.number(MOST_TICKS), self.number(MOST_TICKS)
        ticks = ctypes.c_uint64(7)

        def tolerance():
            if cells_of == 0:
                raise Refused("burst", 1)
            if sustained < peak:
                raise Refused("burst", 2)
            if (cells_of - 1) * (sustained - peak) > MOST_TICKS:
                raise Refused("burst", 3)
            return (cells_of - 1) * (sustained - peak)

        wanted = self.asked("upc_burst_tolerance", tolerance, *map(ctypes.c_uint64, (cells_of, sustained, peak)), ctypes.byref(ticks))
        same("upc_burst_tolerance, the ticks", ticks.value, 7 if wanted is None else wanted)

    def try_fields(self):
        """upc_cell_fields and upc_cell_tag."""
        it, side, fields = self.cell(), self.rng.choice((0, 0, 1, 1, 2, 3, 4, 2**32 - 1)), Fields()
        shared = octets(it)

        def read():
            if len(it) != 52:
                raise Refused("cell", 1, len(it))
            if side > 3:
                raise refused_call("UnknownSide")
            path, channel = cells.connection_of(it, ("uni", "nni")[side % 2])
            return path, channel, it[0] >> 4 if side % 2 == 0 else 0, it[3] >> 1 & 7, it[3] & 1

        wanted = self.asked("upc_cell_fields", read, shared, ctypes.c_size_t(len(it)), side, ctypes.byref(fields))
        same("upc_cell_fields, the fields", values_of(fields), wanted or (0,) * 5)
        refusal = None if len(it) == 52 else Refused("cell", 1, len(it))
        self.call("upc_cell_tag", refusal, shared, ctypes.c_size_t(len(it)))
        same("upc_cell_tag, the octets", bytes(shared), it if refusal else cells.tagged(it))

    def try_code(self):
        """upc_check and upc_listing; upc_assemble reads a listing again."""
        it = self.code()
        self.asked("upc_check", lambda: checked(it), octets(it), ctypes.c_size_t(len(it)))
        room, count = (ctypes.c_uint8 * 4096)(), ctypes.c_size_t(7)

        def listed():
            program = decoded(it)
            for place, one in enumerate(program):
                if any(target >= len(program) for target in targets(one, place)):
                    raise Refused("verify", 6, place)
            return encoded(program)

        wanted = self.asked("upc_listing", listed, octets(it), ctypes.c_size_t(len(it)), room, ctypes.c_size_t(4096), ctypes.byref(count))
        if wanted is not None:
            text, back = bytes(room)[: count.value], (ctypes.c_uint8 * 4096)()
            given = (octets(text), ctypes.c_size_t(len(text)), back, ctypes.c_size_t(4096), ctypes.byref(count))
            self.call("upc_assemble", None, *given)
            same("upc_assemble, the octets of a listing", bytes(back)[: count.value], wanted)

    def try_source(self):
        """upc_assemble, into a room that may be too small."""
        program = programs.any_program(self.rng)
        if len(program) > 50 or not sources.stays_inside(program):
            return
        text = sources.source(self.rng, program)
        length, count = self.rng.choice((0, 8, 400, 400)), ctypes.c_size_t(7)
        room = octets(bytes([0xA5] * length))

        def assembled_to():
            found = encoded(assembled(text))
            if len(found) > length:
                raise refused_call("NoRoom", len(found))
            return found

        wanted = self.asked("upc_assemble", assembled_to, octets(text), ctypes.c_size_t(len(text)), room, ctypes.c_size_t(length), ctypes.byref(count))
        same("upc_assemble, the count", count.value, 7 if wanted is None else len(wanted))
        same("upc_assemble, the room", bytes(room)[:length], (wanted or b"") + bytes([0xA5] * (length - len(wanted or b""))))

    def try_rules(self):
        """upc_rules_compile: the fault of the reference, or the values of its rules."""
        text = text_of(self.rng)
        if len(text) > 2000:
            return
        room, count = (ctypes.c_uint8 * 32768)(), ctypes.c_size_t(7)
        given = (octets(text), ctypes.c_size_t(len(text)), room, ctypes.c_size_t(32768), ctypes.byref(count))
        try:
            reader = read_rules(text)
        except RulesFault as fault:
            self.call("upc_rules_compile", Refused("rules", RULES.index(fault.name) + 1, fault.line, column=fault.column), *given)
            return
        self.call("upc_rules_compile", None, *given)
        code = checked(bytes(room)[: count.value])
        for cell in cells_for(reader, self.rng, 5):
            same("upc_rules_compile, a value", value_and_steps(code, cell)[0], value_of(reader, cell))

    def try_null(self):
        """Null pointers in some calls; tests/c-library tries each pointer of each."""
        wanted = refused_call("NullPointer")
        self.call("upc_contract_check", wanted, None)
        self.call("upc_check", wanted, None, ctypes.c_size_t(8))
        self.call("upc_card_load", wanted, None, octets(b""), ctypes.c_size_t(0), ctypes.byref(Id()))
        self.library.upc_program_free(None)
        self.library.upc_card_free(None)

    # ---- a program ----

    def try_program(self):
        """upc_program_new and upc_program_free."""
        self.held = self.moved(self.held)
        if self.program is not None and self.rng.random() < 0.3:
            self.library.upc_program_free(ctypes.byref(self.held))
            self.program = None
            return
        it = self.code()

        def made():
            if self.program is not None:
                raise refused_call("ProgramThere")
            return checked(it)

        self.program = self.asked("upc_program_new", made, octets(it), ctypes.c_size_t(len(it)), ctypes.byref(self.held)) or self.program

    def try_run(self):
        """upc_program_run."""
        it, value, steps = self.cell(), ctypes.c_uint32(7), ctypes.c_uint32(7)

        def run():
            if len(it) != 52:
                raise Refused("cell", 1, len(it))
            if self.program is None:
                raise refused_call("NoProgram")
            return value_and_steps(self.program, it)

        wanted = self.asked("upc_program_run", run, ctypes.byref(self.held), octets(it), ctypes.c_size_t(len(it)), ctypes.byref(value), ctypes.byref(steps))
        same("upc_program_run, value and steps", (value.value, steps.value), wanted or (7, 7))
