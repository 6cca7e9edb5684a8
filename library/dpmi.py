"""The proved DPMI host for Python: a run of a client, looked at from outside. dpmi.h says what each call gives.

    import dpmi
    client = dpmi.Client(open("clients/watch.exe", "rb").read())
    status, text = client.text(trace=0)               # what `dpmi run` writes
    state = client.states([1260])[0]                  # the registers after turn 1260
    before = client.last_stop(1, 2729, changes=[(0x98F, 1)])[0].turn - 1

Each call makes the run anew, and the same arguments give the same answer. The library is the file that DPMI_LIBRARY names, or
out/libdpmi.so beside this file, which library/quick or library/build makes; without one the import fails as ImportError. A call lets other
threads of Python go on. What a call doesn't take it refuses by Refused, only that `text` gives the refusal as its answer.
"""

import ctypes
import operator
import os
from array import array
from collections import namedtuple
from pathlib import Path

__all__ = ["Client", "State", "Stop", "Refused", "NoRoom", "NoMemory", "prefix", "LIBRARY", "IS_PROVED", "MOST_TURNS", "MOST_TEXT",
           "NOT_THERE", "GOES_ON", "EXITED", "FAULT", "EXITS", "CHANGE", "PLACE", "OUTSIDE"]

LIBRARY = Path(os.environ.get("DPMI_LIBRARY") or Path(__file__).resolve().parent / "out" / "libdpmi.so")
IS_PROVED = not LIBRARY.with_name("unproved").exists()  # library/quick leaves that file beside its library
MOST_TURNS = 1_000_000_000
MOST_TEXT = 6 << 20  # bytes: no text is longer
NOT_THERE = 0xFFFF  # in place of a byte: the client may read none there
GOES_ON, EXITED, FAULT = range(3)
EXITS = ["", "exited", "fault", "bound", "nokeys", "consolefull", "deep", "stray", "loststructure", "badframe", "badswitch"]
CHANGE, PLACE, OUTSIDE = 1, 2, 3
GREATEST = 0xFFFFFFFF


class Refused(ValueError):
    """Status 2: the client's file is refused, or an argument isn't in its range; the message says which."""


class NoRoom(ValueError):
    """Status 4: the text doesn't fit."""


class NoMemory(MemoryError):
    """Status 5: out of memory."""


class State(ctypes.Structure):
    """A client's state after a turn, as `struct dpmi_state` has it. Two states are equal if all their fields are, and what they saw.

    eax ecx edx ebx esp ebp esi edi eip    the registers; of `flags` the 16-bit image
    es cs ss ds fs gs                      the segment registers; es_base and so on are linear addresses, where the segments begin
    steps                                  how many turns were made: the last turn's number, if the client had ended before
    console                                how many bytes the client wrote to the console
    mode, code_bits, stack_bits            0 in real mode or 1 in protected mode; 16 or 32
    virtual_interrupts, trap               1 where they are enabled; 1 where the next turn serves a trap of the host
    depth                                  how many calls, callbacks and exceptions are open
    exit, exit_number, exit_code           how the run ended, by EXITS; the client's code or the exception's number; its error code
    seen                                   what the client sees at each of the places that were asked for: bytes, or NOT_THERE
    """

    _fields_ = [(name, ctypes.c_uint32) for name in (
        "eax ecx edx ebx esp ebp esi edi eip es_base cs_base ss_base ds_base fs_base gs_base steps console exit_code").split()]
    _fields_ += [(name, ctypes.c_uint16) for name in "flags es cs ss ds fs gs".split()]
    _fields_ += [(name, ctypes.c_uint8) for name in (
        "mode code_bits stack_bits virtual_interrupts depth trap exit exit_number").split()]
    seen = memoryview(b"").cast("H")

    @property
    def instruction(self):
        """The linear address of CS:EIP."""
        return (self.cs_base + self.eip) & GREATEST

    @property
    def stack_top(self):
        """The linear address of SS:ESP, or of SS:SP where the stack has 16 bits."""
        return (self.ss_base + (self.esp if self.stack_bits == 32 else self.esp & 0xFFFF)) & GREATEST

    def __eq__(self, other):
        return isinstance(other, State) and bytes(self) == bytes(other) and bytes(self.seen) == bytes(other.seen)

    def __repr__(self):
        registers = " ".join("%s=%08x" % (name, getattr(self, name)) for name, _ in self._fields_[:8])
        ended = " ended as %s" % EXITS[self.exit] if self.exit else ""
        return "<State after turn %d: %s mode, %04x:%08x %s fl=%04x%s>" % (
            self.steps, "protected" if self.mode else "real", self.cs, self.eip, registers, self.flags, ended)

    def __reduce__(self):
        return _state, (bytes(self), bytes(self.seen))


def _state(raw, seen):
    """A state from its bytes, for pickle."""
    row = State.from_buffer_copy(raw)
    row.seen = memoryview(seen).cast("H")
    return row


class _Stop(ctypes.Structure):
    _fields_ = [(name, ctypes.c_uint32) for name in "turn reason which".split()]


class Stop(namedtuple("Stop", "turn reason at")):
    """A turn after which a run stops; why: CHANGE, PLACE or OUTSIDE; and the linear address of the byte or of the place, or None."""

    __slots__ = ()


def _load():
    try:
        library = ctypes.CDLL(str(LIBRARY))
        calls = [getattr(library, name) for name in ("dpmi_run", "dpmi_states", "dpmi_stops", "dpmi_last_stop")]
    except OSError as error:
        raise ImportError("no library at %s (library/quick makes one in two or three minutes, library/build a proved one): %s" % (
            LIBRARY, error)) from None
    except AttributeError as error:
        raise ImportError("%s is another library: %s" % (LIBRARY, error)) from None
    u32, size, pointer = ctypes.c_uint32, ctypes.c_size_t, ctypes.c_void_p
    client = [ctypes.c_char_p, size, ctypes.c_char_p, size, u32, u32]
    search = client + [u32, u32, pointer, size, pointer, size, u32, u32, pointer]
    library.dpmi_run.argtypes = client + [u32, u32, pointer, size, pointer]
    library.dpmi_states.argtypes = client + [pointer, size] * 4
    library.dpmi_stops.argtypes = search + [size, pointer, pointer]
    library.dpmi_last_stop.argtypes = search + [pointer]
    for call in calls:
        call.restype = ctypes.c_uint8
    return library


_LIBRARY = _load()


def _in_range(value):
    """A number that has a range of its own, as the library takes it: one without 32 bits is in none, as GREATEST is in none."""
    value = operator.index(value)
    return value if 0 <= value <= GREATEST else GREATEST


def _number(value):
    """A linear address, or a size. Ctypes would cut it to 32 bits."""
    value = operator.index(value)
    if not 0 <= value <= GREATEST:
        raise Refused("%d isn't a number of 32 bits" % value)
    return value


def _range(at, size):
    """The linear addresses of so many bytes; after FFFFFFFFh comes 0."""
    at, size = _number(at), _number(size)
    return [(at + k) & GREATEST for k in range(size)]


def _numbers(values):
    """An array of numbers and its length. The pointer to an empty one must not be null."""
    try:
        found = array("I", values)
    except OverflowError:
        raise Refused("one of the numbers doesn't have 32 bits") from None
    return (ctypes.c_uint32 * max(len(found), 1)).from_buffer(found or array("I", [0])), len(found)


def prefix(seen):
    """The bytes of `seen` up to the first one that isn't there."""
    raw = bytes(seen)
    low, high = raw[0::2], raw[1::2]
    missing = high.find(b"\xFF")
    return low if missing < 0 else low[:missing]


class Client:
    """A client: the bytes of its file and of its keystrokes, the pages for its memory blocks (1 to 16,384), and after how many turns a
    timer's interrupt comes (up to 1,000,000,000), with 0 for none. What isn't in its range is refused by the calls."""

    def __init__(self, file, keys=b"", pages=1024, timer=0):
        file, keys = memoryview(file).tobytes(), memoryview(keys).tobytes()
        self._words = (file, len(file), keys, len(keys), _in_range(pages), _in_range(timer))

    def text(self, bound=10_000_000, trace=1000):
        """The status and the text of `dpmi run` with this bound and trace. A refusal is an answer here: status 2 and its line. With a
        bound of 0, which the command refuses, it is the text before the first turn."""
        text, written = ctypes.create_string_buffer(MOST_TEXT), ctypes.c_size_t()
        status = _LIBRARY.dpmi_run(*self._words, _in_range(bound), _in_range(trace), text, MOST_TEXT, ctypes.byref(written))
        if status > 2:
            self._check(status)
        return status, text[:written.value]

    def states(self, turns, places=()):
        """The state after each of these turns, which don't go down; each with what the client sees then at each of the linear addresses in
        `places`. After the client's end nothing changes any more."""
        (turns, count), (places, wide) = _numbers(turns), _numbers(places)
        rows, memory = (State * max(count, 1))(), (ctypes.c_uint16 * max(count * wide, 1))()
        status = _LIBRARY.dpmi_states(*self._words, turns, count, places, wide, rows, count, memory, count * wide)
        self._check(status, "turns that go down, or one above 1,000,000,000")
        found, seen = list(rows)[:count], memoryview(memory).cast("B").cast("H")
        for number, row in enumerate(found):
            row.seen = seen[number * wide:(number + 1) * wide]
        return found

    def steps(self, count):
        """The states after each of the first `count` turns, up to the client's end."""
        found = self.states(range(1, count + 1))
        return found[:sum(row.exit == GOES_ON for row in found) + 1]

    def memory(self, turn, at, size):
        """The bytes that the client sees after a turn from a linear address on, up to the first one that it may not read."""
        return prefix(self.states([turn], _range(at, size))[0].seen)

    def stops(self, first, last, places=(), changes=(), stay=None, room=1000):
        """The first stops of the turns from `first` (1 or more) to `last`, at most `room`; and the last turn that was made, which is an
        earlier one where there was no more room, or the client ended. A turn is a stop where it changed a byte of `changes`, pairs of a
        linear address and a size; where CS:EIP is then at one of the linear addresses in `places`; or where it is at an instruction
        outside `stay`, such a pair. At most 65,536 places and as many bytes are looked for."""
        search, addresses = self._search(first, last, places, changes, stay)
        room = _number(room)
        stops, made, reached = (_Stop * max(room, 1))(), ctypes.c_size_t(), ctypes.c_uint32()
        status = _LIBRARY.dpmi_stops(*self._words, *search, stops, room, ctypes.byref(made), ctypes.byref(reached))
        self._check(status, REFUSED_SEARCH)
        return [_stop(stops[number], *addresses) for number in range(made.value)], reached.value

    def last_stop(self, first, last, places=(), changes=(), stay=None):
        """The last of these stops, or None; and the last turn that was made."""
        search, addresses = self._search(first, last, places, changes, stay)
        stop, reached = _Stop(), ctypes.c_uint32()
        status = _LIBRARY.dpmi_last_stop(*self._words, *search, ctypes.byref(stop), ctypes.byref(reached))
        self._check(status, REFUSED_SEARCH)
        return _stop(stop, *addresses) if stop.turn else None, reached.value

    @staticmethod
    def _search(first, last, places, changes, stay):
        places = list(places)
        changed = [address for at, size in changes for address in _range(at, size)]
        at, size = map(_number, stay or (0, 0))
        numbers = (_in_range(first), _in_range(last), *_numbers(places), *_numbers(changed), at, size)
        return numbers, (places, changed)

    def _check(self, status, otherwise=""):
        """Raises what a status says. Where the client itself is refused, the text of a run without turns says why."""
        if status == 2:
            of_client, text = self.text(0, 0)
            word = text.decode().strip().removeprefix("refused ") if of_client == 2 else otherwise
            raise Refused("pages or timer not in their ranges" if word == "words" else word)
        if status:
            raise {4: NoRoom, 5: NoMemory}[status]("status %d" % status)


REFUSED_SEARCH = "no turns from 1 to 1,000,000,000 in order, or more than 65,536 places or bytes"


def _stop(stop, places, changed):
    addresses = {CHANGE: changed, PLACE: places}.get(stop.reason)
    return Stop(stop.turn, stop.reason, addresses and addresses[stop.which])
