"""The states of a run by their turn, of which those around a turn that was asked for are kept; and its stops: one run finds many."""

import re
from collections import OrderedDict, namedtuple

import dpmi

BEFORE, AFTER, MOST_ROWS = 16, 48, 4096  # the states of a call before the one that is asked for and after it, and those that are kept
FAR, WIDEST = 6_000_000, 16  # where a run takes long, a call brings more states: once more for so many turns, up to this factor
LINE, MOST_LINES = 256, 40  # memory is fetched in lines of so many bytes, and each call brings those that were asked for lately
BLOCK = 256  # the lines that are fetched of one state, where someone reads more than a line
SLICE, FACTOR, MOST_STOPS = 5_000_000, 4, 256  # the turns of a search's first part, how it grows, and the stops of a part

# What is looked for: places, pairs of an address and a size whose bytes change, and one such pair in which the client is to stay.
Wanted = namedtuple("Wanted", "places changes stay", defaults=[None])
# Stops that were found: all those of the turns after `begun` up to `reached`; and for how many there was room.
Found = namedtuple("Found", "wanted begun stops reached room")
# Stops of a run backward: all those from one turn to another, and how far it was to the first that was found.
Behind = namedtuple("Behind", "wanted low high stops distance")
Report = namedtuple("Report", "console total trace lines")


class Timeline:
    def __init__(self, client, wire, bound):
        self.client, self.wire, self.bound = client, wire, bound
        self.rows = OrderedDict()
        self.memory = {}  # lines by their turn and then by their address
        self.lately = OrderedDict()  # addresses of lines
        self.found = self.behind = None

    # ---- states

    def fetch(self, turns, lines=()):
        """Keeps the states after these turns, with the memory that was asked for lately."""
        for line in lines:
            self.lately[line] = True
            self.lately.move_to_end(line)
        while len(self.lately) > MOST_LINES:
            self.lately.popitem(last=False)
        kept = list(self.lately)
        places = [line + k for line in kept for k in range(LINE)]
        found, = self.wire.attend(lambda: self.client.states(turns, places))
        for turn, row in zip(turns, found):
            self.memory.setdefault(turn, {}).update(lines_of(row, kept))
            self.rows[turn], row.seen = row, ()
            self.rows.move_to_end(turn)
        while len(self.rows) > MOST_ROWS:
            turn, _ = self.rows.popitem(last=False)
            del self.memory[turn]

    def around(self, turn, before=BEFORE):
        factor = min(1 + turn // FAR, WIDEST)
        return range(max(0, turn - factor * before), min(turn + factor * (BEFORE + AFTER - before), self.bound) + 1)

    def state(self, turn, before=BEFORE):
        if turn not in self.rows:
            self.fetch(self.around(turn, before))
        return self.rows[turn]

    def line(self, turn, address):
        """A line of memory after a turn: its numbers of 16 bits. With one that is missing come those at the code and the stack."""
        if address not in self.memory.get(turn, {}):
            row = self.state(turn)
            near = (row.instruction, row.stack_top, row.stack_top + LINE, row.ss_base + row.ebp, row.ds_base + row.edx)
            self.fetch(self.around(turn), [*(at & -LINE & 0xFFFFFFFF for at in near), address])
        self.lately[address] = True
        self.lately.move_to_end(address)
        return self.memory[turn][address]

    def prepare(self, turn):
        """Fetches what gdb looks at where the client stops. It waits then, and Ctrl-C works."""
        at = self.state(turn).instruction
        if turn > FAR:
            self.line(turn, at & -LINE)

    def fetch_block(self, turn, at, size):
        self.state(turn)
        missing = [it for it in range(at & -LINE, at + size, LINE) if it & 0xFFFFFFFF not in self.memory[turn]]
        if missing:
            lines = [(missing[0] + number * LINE) & 0xFFFFFFFF for number in range(BLOCK)]
            places = [line + k for line in lines for k in range(LINE)]
            (row,), = self.wire.attend(lambda: self.client.states([turn], places))
            self.memory[turn].update(lines_of(row, lines))

    def read(self, turn, at, size):
        """The bytes from a linear address on, up to the first one that the client may not read."""
        got = b""
        if size > LINE:
            self.fetch_block(turn, at, size)
        while len(got) < size:
            address = (at + len(got)) & 0xFFFFFFFF
            into = address % LINE
            numbers = self.line(turn, address - into)[2 * into:2 * (into + size - len(got))]
            missing = numbers[1::2].find(b"\xFF")
            if missing >= 0:
                return got + numbers[0:2 * missing:2]
            got += numbers[0::2]
        return got

    def after(self, turn):
        """The next turn after which no trap of the host is served, or the client has ended; or None at the bound."""
        while turn < self.bound:
            turn += 1
            row = self.state(turn)
            if row.exit or not row.trap:
                return turn
        return None

    def before(self, turn):
        """The last turn before this one after which no trap of the host is served; or None."""
        while turn > 0:
            turn -= 1
            row = self.state(turn, before=AFTER)
            if not row.trap and not row.exit:
                return turn
        return None

    # ---- stops

    def stop_nearby(self, turn, wanted, step=1):
        """The first stop after a turn, or before it where `step` is -1, as far as states are kept and say it; else None."""
        while not wanted.changes:
            turn += step
            row = self.rows.get(turn)
            if row is None or row.exit:
                return None
            if row.instruction in wanted.places:
                return dpmi.Stop(turn, dpmi.PLACE, row.instruction)
            if wanted.stay and not row.trap and (row.instruction - wanted.stay[0]) & 0xFFFFFFFF >= wanted.stay[1]:
                return dpmi.Stop(turn, dpmi.OUTSIDE, None)

    def next_stop(self, turn, wanted, passed, show):
        """The first stop after a turn, or None; and its turn, or the client's last one or the bound. The search is made in parts: after one
        without a stop `passed` gets its last turn, and then `show` what the client wrote to the console up to there."""
        near = self.stop_nearby(turn, wanted)
        if near:
            return near, near.turn
        known, first, room = self.found, turn + 1, 1
        if known and known.wanted == wanted and known.begun <= turn:
            for stop in known.stops:
                if stop.turn > turn:
                    return stop, stop.turn
            first, room = max(first, known.reached + 1), min(MOST_STOPS, FACTOR * known.room)
        last, texts = first + max(SLICE, turn // FACTOR), []
        while first <= self.bound:
            last = min(last, self.bound)
            stops, reached = self.search(first, last, wanted, room, texts, show)
            self.found = Found(wanted, turn, stops, reached, room)
            if stops:
                self.fetch_all([stop.turn for stop in stops])
                return stops[0], stops[0].turn
            if reached < last:
                return None, reached
            passed(reached)
            texts = [lambda turn=reached: self.client.text(turn, trace=0)]
            first, last = last + 1, FACTOR * last
        return None, self.bound

    def search(self, first, last, wanted, room, texts, show):
        """The stops of a part. The console up to the part before is fetched at the same time."""
        words = first, last, wanted.places, wanted.changes, wanted.stay, room

        def heard(number, result):
            if number:
                show(read_report(result[1]).console)

        return self.wire.attend(lambda: self.client.stops(*words), *texts, heard=heard)[0]

    def fetch_all(self, turns):
        """Where there are several stops, gdb will look at each of them, and at the turns before and after."""
        if len(turns) > 1:
            near = {turn + k for turn in turns for k in (-1, 0, 1)}
            self.fetch(sorted(turn for turn in near if 0 <= turn <= self.bound))

    # ---- stops of a run backward

    def last_stop(self, turn, places, changes):
        """The last turn before this one at which a run backward stops, and why: the client is at one of the places then, or the next turn
        changes one of these bytes. None if there is no such turn. Where gdb asks again and again, one run finds many."""
        wanted, known = Wanted(tuple(places), tuple(changes)), self.behind
        near = self.stop_nearby(turn, wanted, -1)
        if near:
            return near
        if known and known.wanted == wanted and turn <= known.high + 1:
            earlier = [stop for stop in known.stops if stop.turn < turn]
            if earlier:
                if earlier[-1].turn not in self.rows:
                    self.fetch_all([stop.turn for stop in earlier[-MOST_STOPS:]])
                return earlier[-1]
            found = self.many_before(turn, min(turn, known.low) - 1, known)
            if found:
                return found
        found = self.last_of_all(turn - 1, wanted)
        if found:
            self.behind = Behind(wanted, found.turn, turn - 1, [found], turn - found.turn)
        return found

    def many_before(self, turn, high, known):
        """The last one, and with it those of many turns up to `high`; None if there is none in these."""
        low, stops = high - MOST_STOPS * known.distance, None
        while stops is None and high >= 0:
            low = max(low, 0)
            stops = self.stops_backward(low, high, known.wanted)
            if stops is None:  # too many for one call
                low = high - (high - low) // FACTOR
        if not stops:
            return None
        self.behind = known._replace(low=low, high=turn - 1, stops=stops)
        return self.last_stop(turn, *known.wanted[:2])

    def last_of_all(self, high, wanted):
        calls = []
        if wanted.places and high > 0:
            calls.append(lambda: self.client.last_stop(1, high, wanted.places))
        if wanted.changes and high >= 0:
            calls.append(lambda: self.client.last_stop(1, high + 1, changes=wanted.changes))
        found = [backward(stop) for stop, _ in self.wire.attend(*calls) if stop]
        return max(found, key=lambda stop: stop.turn, default=None)

    def stops_backward(self, low, high, wanted):
        """All these turns from `low` to `high`, in order; None if they are too many for a call."""
        room, calls = FACTOR * MOST_STOPS, []
        if wanted.places and high > 0:
            calls.append(lambda: self.client.stops(max(low, 1), high, wanted.places, room=room))
        if wanted.changes:
            calls.append(lambda: self.client.stops(low + 1, high + 1, changes=wanted.changes, room=room))
        results = [stops for stops, _ in self.wire.attend(*calls)]
        if any(len(stops) == room for stops in results):
            return None
        return sorted((backward(stop) for stops in results for stop in stops), key=lambda stop: stop.turn)

    # ---- the text of the command

    def report(self, turn, trace=0):
        """What the command writes of a run of so many turns."""
        (_, text), = self.wire.attend(lambda: self.client.text(turn, trace))
        return read_report(text)


def lines_of(row, lines):
    """Lines of memory by their addresses, from what a state has of them: of each byte its number of 16 bits."""
    return {line: bytes(row.seen[number * LINE:(number + 1) * LINE].cast("B")) for number, line in enumerate(lines)}


def backward(stop):
    """A run backward stops before the turn that changed a byte."""
    return stop._replace(turn=stop.turn - 1) if stop.reason == dpmi.CHANGE else stop


def read_report(text):
    start = text.index(b"\n") + 1
    size = int(text[8:start])
    lines = text[start + size + 1:].decode("latin1").splitlines()
    kept, total = map(int, re.match(r"trace (\d+) of (\d+)", lines[0]).groups())
    return Report(text[start:start + size], total, lines[1:1 + kept], lines[2 + kept:])
