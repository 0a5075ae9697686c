"""Random calls of a card, and what each has to answer."""

import ctypes

from policer.faults import Fault as ReferenceFault

from library.calling import Calls, Different, same
from library.model import LAST_MOMENT, CardModel, Refused, checked, contract_of, refused_call, translated
from library.structs import Answer, Contract, Counts, Cursor, Entry, Id, Journal, Meter, Shape, State, octets, values_of


class CardCalls(Calls):
    """A sequence of calls. A line goes on counting when its connection ends: `ended` has the counts of lines without one."""

    def __init__(self, library, rng):
        super().__init__(library, rng)
        self.moment, self.ended, self.before = 0, {(0, 0, 0, 0)}, {}

    def there(self):
        """Returns the model of the card, or refuses."""
        if self.model is None:
            raise refused_call("NoCard")
        return self.model

    def try_card(self):
        """upc_card_new, upc_card_free and upc_card_shape."""
        self.card = self.moved(self.card)
        if self.model is not None and self.rng.random() < 0.1:
            self.library.upc_card_free(ctypes.byref(self.card))
            self.model = None
        shape = (self.rng.choice((0, 1, 2, 3)), self.rng.choice((1, 3)), self.rng.choice((1, 4)), self.rng.choice((1, 16)), self.rng.choice((2, 8)))
        if self.rng.random() < 0.2:
            most = (3, 1024, 4096, 16, 65536)
            shape = tuple(self.rng.choice((number, number, 0, limit + 1)) for number, limit in zip(shape, most))

        def made():
            if self.model is not None:
                raise refused_call("CardThere")
            if shape[0] > 3:
                raise refused_call("UnknownSide")
            return CardModel(shape)

        found = self.asked("upc_card_new", made, ctypes.byref(Shape(*shape)), ctypes.byref(self.card))
        if found is not None:
            self.model, self.moment, self.ended, self.before = found, 0, {(0, 0, 0, 0)}, {}
        reported = Shape(7, 7, 7, 7, 7)
        wanted = self.asked("upc_card_shape", lambda: self.there().shape, ctypes.byref(self.card), ctypes.byref(reported))
        same("upc_card_shape, the shape", values_of(reported), wanted or (7,) * 5)

    def try_load(self):
        """upc_card_load."""
        it, name = self.code(), Id(7, 7)

        def loaded():
            program = checked(it)
            return self.there().load(program)

        number = self.asked("upc_card_load", loaded, ctypes.byref(self.card), octets(it), ctypes.c_size_t(len(it)), ctypes.byref(name))
        if number is None:
            same("upc_card_load, the id", values_of(name), (7, 7))
            return
        if values_of(name) in self.model.given:
            raise Different(f"upc_card_load gives the id {values_of(name)} again")
        self.model.given.add(values_of(name))
        self.model.ids[number] = values_of(name)

    def name(self):
        """The id of a program, seldom of none."""
        live = list(self.model.ids.values()) if self.model else []
        return self.rng.choice(live) if live and self.rng.random() < 0.9 else (self.rng.randrange(3), self.rng.randrange(3))

    def try_retire(self):
        """upc_card_retire."""
        name = self.name()
        if self.rng.random() < 0.5:
            return

        def retired():
            number = self.there().number_of(name)
            self.model.retire(number)
            return number

        number = self.asked("upc_card_retire", retired, ctypes.byref(self.card), ctypes.byref(Id(*name)))
        if number:
            del self.model.ids[number]

    def try_setup(self):
        """upc_card_setup, and what its line has counted before."""
        (path, channel), name = self.vc(), self.name()
        wanted_contracts = [self.contract() for _ in range(self.rng.choice((0, 1, 1, 2, 2, 4, 5)))]

        def set_up():
            if len(wanted_contracts) > 4:
                raise refused_call("ManyContracts")
            contracts = [contract_of(it) for it in wanted_contracts]
            vc = self.there().vc_of(path, channel)
            self.model.set_up_on(vc, name, contracts)
            return vc

        array = (Contract * 5)(*wanted_contracts) if wanted_contracts else None
        given = (ctypes.c_uint16(path), ctypes.c_uint16(channel), ctypes.byref(Id(*name)), array, ctypes.c_size_t(len(wanted_contracts)))
        vc = self.asked("upc_card_setup", set_up, ctypes.byref(self.card), *given)
        if vc is not None:
            counts = Counts()
            self.call("upc_card_counts", None, ctypes.byref(self.card), *map(ctypes.c_uint16, vc), ctypes.byref(counts))
            if values_of(counts) not in self.ended:
                raise Different(f"upc_card_counts: {values_of(counts)} after the setup")
            self.model.counts[vc] = list(values_of(counts))
            self.before[vc] = values_of(counts)

    def try_reload(self):
        """upc_card_reload."""
        (path, channel), name, earlier = self.vc(), self.name(), Id(7, 7)

        def reloaded():
            vc = self.there().vc_of(path, channel)
            number = self.model.number_of(name)
            self.model.find_program(number)
            was = self.model.ids[self.model.find_connection(vc).program]
            self.model.reload(vc, number)
            return was

        given = (ctypes.c_uint16(path), ctypes.c_uint16(channel), ctypes.byref(Id(*name)), ctypes.byref(earlier))
        wanted = self.asked("upc_card_reload", reloaded, ctypes.byref(self.card), *given)
        same("upc_card_reload, the earlier id", values_of(earlier), wanted or (7, 7))

    def try_inspect(self):
        """upc_card_journal and upc_card_counts."""
        (path, channel), found, counts = self.vc(), ctypes.c_size_t(7), Counts(7, 7, 7, 7)

        def inspected():
            vc = self.there().vc_of(path, channel)
            self.model.find_connection(vc)
            return vc

        given = (ctypes.c_uint16(path), ctypes.c_uint16(channel))
        vc = self.asked("upc_card_journal", inspected, ctypes.byref(self.card), *given, ctypes.byref(found))
        same("upc_card_journal, the cells", found.value, 7 if vc is None else len(self.model.journals[vc]))
        vc = self.asked("upc_card_counts", inspected, ctypes.byref(self.card), *given, ctypes.byref(counts))
        same("upc_card_counts, the counts", values_of(counts), (7,) * 4 if vc is None else tuple(self.model.counts[vc]))

    def try_state(self):
        """upc_card_state, into a room that may be too small."""
        known = list(self.model.connections) if self.model else []
        path, channel = self.rng.choice(known) if known and self.rng.random() < 0.7 else self.vc()
        length, state = self.rng.choice((0, 1, 4, 4, 4, 5)), State()
        room = (Meter * length)(*(Meter(Contract(*[7] * 5), (7, 7)) for _ in range(length))) if length else None

        def read():
            vc = self.there().vc_of(path, channel)
            numbers, meters = self.model.state_of(vc)
            if len(meters) > length:
                raise refused_call("NoRoom", len(meters))
            return vc, numbers, meters

        given = (ctypes.c_uint16(path), ctypes.c_uint16(channel), room, ctypes.c_size_t(length), ctypes.byref(state))
        wanted = self.asked("upc_card_state", read, ctypes.byref(self.card), *given)
        meters = [] if wanted is None else wanted[2]
        rest = [((7,) * 5, (7, 7))] * (length - len(meters))
        same("upc_card_state, the meters", [values_of(it) for it in room or ()], meters + rest)
        if wanted is None:
            same("upc_card_state, the state", values_of(state), values_of(State()))
            return
        line = self.model.lines.setdefault(wanted[0], state.line)
        same("upc_card_state, the state", values_of(state), (*wanted[1], line))

    def try_next(self):
        """upc_card_next: a whole listing, or one step from anywhere."""
        cursor, whole = Cursor(0, *self.vc()), self.rng.random() < 0.5
        if not whole:
            cursor.begun = self.rng.choice((0, 1, 2**32 - 1))
        while True:

            def moved():
                model = self.there()
                at = model.vc_of(cursor.path, cursor.channel) if cursor.begun else None
                return (1, *model.after(at))

            before = values_of(cursor)
            wanted = self.asked("upc_card_next", moved, ctypes.byref(self.card), ctypes.byref(cursor))
            same("upc_card_next, the cursor", values_of(cursor), wanted or before)
            if wanted is None or not whole:
                return

    def try_cut(self):
        """upc_card_cut and upc_card_release, into a room that may be too small."""
        (path, channel), length = self.vc(), self.rng.choice((0, 1, 8, 8, 8))
        name = self.rng.choice(("upc_card_cut", "upc_card_cut", "upc_card_release"))
        room = (Entry * length)(*(Entry(7, Id(7, 7), 7, 7, 7) for _ in range(length))) if length else None
        journal = Journal()

        def handed():
            vc = self.there().vc_of(path, channel)
            self.model.find_connection(vc)
            if len(self.model.journals[vc]) > length:
                raise refused_call("NoRoom", len(self.model.journals[vc]))
            return vc

        given = (ctypes.c_uint16(path), ctypes.c_uint16(channel), room, ctypes.c_size_t(length), ctypes.byref(journal))
        vc = self.asked(name, handed, ctypes.byref(self.card), *given)
        entries = [] if vc is None else self.model.journals[vc]
        rest = [(7, (7, 7), 7, 7, 7)] * (length - len(entries))
        same(f"{name}, the entries", [values_of(it) for it in room or ()], entries + rest)
        if vc is None:
            return
        after = tuple(self.model.counts[vc])
        same(f"{name}, the journal", values_of(journal), (len(entries), self.before[vc], after))
        self.before[vc], self.model.journals[vc] = after, []
        if name == "upc_card_cut":
            self.model.cut(vc)
        else:
            self.model.release(vc)
            self.ended.add(after)

    def next_moment(self):
        """The moment of the next cell, seldom one that is refused."""
        self.moment += self.rng.choice((0, 1, 3, 10, 40))
        return self.moment if self.rng.random() < 0.95 else self.rng.choice((0, max(0, self.moment - 20), LAST_MOMENT + 1))

    def try_arrive(self):
        """upc_card_arrive."""
        it, answer, moment = self.cell(), Answer(), self.next_moment()
        shared = octets(it)

        def arrived():
            if len(it) != 52:
                raise Refused("cell", 1, len(it))
            return self.there().arrived(moment, it)

        given = (shared, ctypes.c_size_t(len(it)), ctypes.c_uint64(moment), ctypes.byref(answer))
        wanted = self.asked("upc_card_arrive", arrived, ctypes.byref(self.card), *given)
        if wanted is None:
            same("upc_card_arrive, the octets", bytes(shared), it)
            same("upc_card_arrive, the answer", values_of(answer), values_of(Answer()))
            return
        vc, verdict, value, name, leaving = wanted
        same("upc_card_arrive, the leaving cell", bytes(shared), leaving)
        line = self.model.lines.setdefault(vc, answer.line)
        same("upc_card_arrive, the answer", values_of(answer), (verdict, value, self.model.counts[vc][verdict], moment, name, line))


    def try_many(self):
        """upc_card_arrive_many: cells of a buffer, which may overlap, end beyond it, or be more than there are answers."""
        count, stride = self.rng.choice((0, 1, 2, 3, 6)), self.rng.choice((52, 52, 52, 53, 60, 51, 4, 3, 1, 0, 2**63, 2**64 - 1))
        length, room = max(0, count + self.rng.choice((0, 0, 0, 0, 2, -1))), bytearray()
        for place in range(count if stride < 100 else min(count, 1)):
            room.extend(bytes(max(0, place * stride + 52 - len(room))))
            room[place * stride : place * stride + 52] = self.cell()[:52]
        room = room[: len(room) - self.rng.choice((1, 30, 60))] if self.rng.random() < 0.1 else room
        moments = [self.next_moment() for _ in range(count)]
        shared, answers = octets(bytes(room)), (Answer * max(1, length))(*(Answer(7, 7, 7, 7, Id(7, 7), 7) for _ in range(length)))
        found, refused = self.judged(room, stride, moments) if count <= length else ([], refused_call("NoRoom", count))
        given = (shared if room else None, ctypes.c_size_t(len(room)), ctypes.c_size_t(stride))
        given += ((ctypes.c_uint64 * count)(*moments) if count else None, ctypes.c_size_t(count))
        done = ctypes.c_size_t(77)
        given += (answers if length else None, ctypes.c_size_t(length), ctypes.byref(done))
        self.call("upc_card_arrive_many", refused, ctypes.byref(self.card), *given)
        same("upc_card_arrive_many, the judged cells", done.value, len(found))
        same("upc_card_arrive_many, the octets", bytes(shared)[: len(room)], bytes(room))
        for (vc, *wanted), answer in zip(found, answers):
            same("upc_card_arrive_many, an answer", values_of(answer), (*wanted, self.model.lines.setdefault(vc, answer.line)))
        for answer in answers[len(found) : length]:
            same("upc_card_arrive_many, another answer", values_of(answer), (7, 7, 7, 7, (7, 7), 7))

    def judged(self, room, stride, moments):
        """Judges cells of a buffer, in which the leaving cells are written. Returns the connection and the answer of each, without
        the line, up to the first that is refused, and its refusal."""
        found = []
        for place, moment in enumerate(moments):
            it = bytes(room[place * stride : place * stride + 52])
            try:
                if len(it) != 52:
                    raise Refused("cell", 1, len(it))
                vc, verdict, value, name, leaving = self.there().arrived(moment, it)
            except Refused as refused:
                return found, refused
            except ReferenceFault as fault:
                return found, translated(fault)
            room[place * stride : place * stride + 52] = leaving
            found.append((vc, verdict, value, self.model.counts[vc][verdict], moment, name))
        return found, None
