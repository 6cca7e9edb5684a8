"""Answers gdb's packets about a client's run."""

import re
import sys

import target
from timeline import Wanted
from wire import NO_PACKET, NO_TEXT, GivenUp, Interrupted

import dpmi

SIGNALS = {0: 8, 1: 5, 3: 5, 4: 8, 6: 4, 7: 4, 16: 8}  # of exceptions, by gdb's numbers; of any other it is 11
INTERRUPTED, STOPPED, KILLED, SEGMENT = 2, 5, 9, 11
MOST_WATCHED, MOST_READ = 4096, 0x3800  # bytes
# Without acknowledgements gdb would take an answer that it gave up for that to its next packet.
FEATURES = "PacketSize=8000;ReverseStep+;ReverseContinue+;qXfer:features:read+;swbreak+;hwbreak+;vContSupported+"
HELP = """monitor turn           where the run is
monitor turn N         goes to turn N: type stepi afterwards, and gdb is there
monitor trace [N]      the last N lines of the trace up to this turn (20)
monitor descs          the descriptors
monitor blocks         the memory blocks
"""
SHOWN = 20
# A run is what its file makes of it.
NO_WRITES = "E.the run can't be changed"


class Stub:
    """A client's run at one of its turns. Addresses are linear, and are counted from `base` in gdb."""

    def __init__(self, timeline, wire, base):
        self.timeline, self.wire, self.base = timeline, wire, base
        self.places, self.ranges = set(), set()
        self.is_extended = False
        self.begin()

    def begin(self):
        """Is before the first turn, as if the user had never been elsewhere."""
        self.turn, self.jump, self.is_gone = 0, None, False
        self.shown, self.at_line_start = 0, True
        self.last = None  # the last turn before the end, once the user was there

    # ---- what the client says, and stops

    def linear(self, address):
        return (address + self.base) & 0xFFFFFFFF

    def show_console(self, turn):
        """Shows what the client wrote to the console and wasn't shown yet."""
        if self.timeline.state(turn).console > self.shown:
            self.show_text(self.timeline.report(turn).console)

    def show_text(self, console):
        new = console[self.shown:]
        if new:
            self.shown, self.at_line_start = len(console), new.endswith(b"\n")
            self.wire.show(new.replace(b"\r\n", b"\n"))

    def tell(self, text):
        self.wire.show(b"\n" * (not self.at_line_start) + b"dpmi: " + text.encode() + b"\n")
        self.at_line_start = True

    def stop(self, turn, signal=STOPPED, why=""):
        self.timeline.prepare(turn)
        self.show_console(turn)
        self.turn = turn
        self.wire.send("T%02x%s" % (signal, why))

    def watch(self, address):
        """The reason of a stop for a change of this byte."""
        at = next((at for at, size in self.ranges if (address - at) & 0xFFFFFFFF < size), address)
        return "watch:%x;" % ((at - self.base) & 0xFFFFFFFF)

    def stop_at_start(self):
        self.stop(0, why="replaylog:begin;")

    def stop_at_bound(self):
        self.tell("these are the %d turns of --bound" % self.timeline.bound)
        self.stop(self.timeline.bound, INTERRUPTED)

    def reach_end(self, turn):
        """The client ends in this turn: stops before it, so that one can go back from there; the next time it ends."""
        row, last = self.timeline.state(turn), max(self.timeline.before(turn), self.turn)
        if self.last == last == self.turn:
            self.is_gone = True
            return self.wire.send(answer_of_end(row))
        self.show_console(turn)
        self.tell("%s, in turn %d" % (words_of_end(row), turn))
        self.tell("here it is after turn %d: go back, or continue to let it end" % last)
        self.last = last
        if row.exit == dpmi.FAULT:
            return self.stop(last, SIGNALS.get(row.exit_number, SEGMENT))
        return self.stop(last, why="replaylog:end;")

    # ---- running

    def run(self, go, *words):
        """Runs the client by one of the functions below, or goes to the turn that the user named. gdb waits for that without end."""
        self.wire.alive = b""
        if self.jump is not None:
            go, words, self.jump = self.go_to, [self.jump], None
        try:
            go(*words)
        except Interrupted:
            self.wire.send("T%02x" % INTERRUPTED)

    def go_to(self, turn):
        row = self.timeline.state(turn)
        return self.reach_end(row.steps) if row.exit else self.stop(turn)

    def forward(self, stay=None):
        wanted = Wanted(tuple(sorted(self.places)), tuple(sorted(self.ranges)), stay)
        stop, turn = self.timeline.next_stop(self.turn, wanted, self.pass_by, self.show_text)
        if stop is None:
            return self.reach_end(turn) if self.timeline.state(turn).exit else self.stop_at_bound()
        if stop.reason == dpmi.CHANGE:
            return self.stop_after_change(stop)
        if self.timeline.state(turn).exit:
            return self.reach_end(turn)
        return self.stop(turn, why="swbreak:;" if stop.reason == dpmi.PLACE else "")

    def pass_by(self, turn):
        """There is no stop up to this turn: if the user presses Ctrl-C, the run stops here."""
        self.turn = turn

    def stop_after_change(self, stop):
        """After a turn that changed a byte; or after the host's work, if the turn is a part of that."""
        row = self.timeline.state(stop.turn)
        turn = self.timeline.after(stop.turn) if row.trap and not row.exit else stop.turn
        if turn is None:
            return self.stop_at_bound()
        if self.timeline.state(turn).exit:
            return self.reach_end(turn)
        return self.stop(turn, why=self.watch(stop.at))

    def backward(self):
        found = self.timeline.last_stop(self.turn, sorted(self.places), sorted(self.ranges))
        if found is None and self.turn and self.timeline.state(0).instruction in self.places:
            return self.stop(0, why="swbreak:;")
        if found is None:
            return self.stop_at_start()
        if found.reason == dpmi.PLACE:
            return self.stop(found.turn, why="swbreak:;")
        is_of_host = self.timeline.state(found.turn).trap
        turn = self.timeline.before(found.turn) if is_of_host else found.turn
        return self.stop(turn or 0, why=self.watch(found.at))

    def step(self):
        turn = self.timeline.after(self.turn)
        if turn is None:
            return self.stop_at_bound()
        if self.timeline.state(turn).exit:
            return self.reach_end(turn)
        return self.stop(turn, why=self.changed(turn))

    def step_back(self):
        turn = self.timeline.before(self.turn)
        if turn is None:
            return self.stop_at_start()
        return self.stop(turn, why=self.changed(turn))

    def changed(self, turn):
        """The reason of a stop at this turn, if a byte that is watched is another one than now."""
        for at, size in self.ranges:
            if self.timeline.read(self.turn, at, size) != self.timeline.read(turn, at, size):
                return self.watch(at)
        return ""

    # ---- packets that run the client

    def resume(self, body):
        """Serves a packet that runs the client, and returns whether it was one."""
        action = body.removeprefix("vCont;")
        if body in ("bc", "bs"):
            self.run(self.backward if body == "bc" else self.step_back)
        elif body.startswith("vCont;r"):
            start, end = (from_hex(word) for word in action[1:].split(";")[0].split(":")[0].split(","))
            self.run(*((self.forward, (self.linear(start), end - start)) if end > start else (self.step,)))
        elif action[0] in "cC":
            self.run(self.forward)
        elif action[0] in "sS":
            self.run(self.step)
        else:
            return False
        return True

    # ---- packets that ask

    def point(self, body):
        """Sets or clears a breakpoint or a watchpoint for writing."""
        kind, address, size = body[1:].split(";")[0].split(",")
        address, size = self.linear(from_hex(address)), from_hex(size)
        if kind in "01":
            points, key = self.places, address
        elif kind == "2":
            points, key = self.ranges, (address, size)
        else:
            return ""
        if body[0] == "z":
            points.discard(key)
        elif kind == "2" and sum(it for _, it in self.ranges) + size > MOST_WATCHED:
            return "E.at most %d bytes can be watched" % MOST_WATCHED
        else:
            points.add(key)
        return "OK"

    def query(self, body):
        if body.startswith("qSupported"):
            return FEATURES
        if body.startswith("qXfer:features:read:target.xml:"):
            at, size = (from_hex(word) for word in body.rsplit(":", 1)[1].split(","))
            text = target.description()
            return ("m" if at + size < len(text) else "l") + text[at:at + size]
        if body.startswith("qRcmd,"):
            return self.monitor(bytes.fromhex(body[6:]).decode("latin1").split()).encode("latin1").hex()
        threads = "l" if self.is_gone else "m1"
        return {"qAttached": "0", "qC": "QC1", "qfThreadInfo": threads, "qsThreadInfo": "l"}.get(body, "")

    def register(self, number):
        texts = self.registers()
        return texts[number] if number < len(texts) else "E.there are %d registers" % len(texts)

    def registers(self):
        return target.registers(self.timeline.state(self.turn), self.turn, self.base)

    def bytes_at(self, words):
        at, size = (from_hex(word) for word in words.split(","))
        return self.timeline.read(self.turn, self.linear(at), min(size, MOST_READ)).hex() or "E0e"

    def answer(self, body):
        """The answer to a packet that doesn't run the client, empty where the packet isn't served."""
        first, rest = body[:1], body[1:]
        if body in ("?", "vCont?"):
            return "T%02x" % STOPPED if body == "?" else "vCont;c;C;s;S;r"
        if first == "g":
            return "".join(self.registers())
        if first == "p":
            return self.register(from_hex(rest))
        if first == "m":
            return self.bytes_at(rest)
        if first in ("Z", "z"):
            return self.point(body)
        if first == "q":
            return self.query(body)
        if first in ("H", "T"):
            return "OK"
        if first in ("G", "P", "M", "X"):
            return NO_WRITES
        return ""

    def end_or_begin(self, body):
        """Serves a packet that ends the run or begins it anew, and returns whether it was one. In extended mode gdb stays after the end."""
        if body == "!":
            self.is_extended = True
            self.wire.send("OK")
        elif body[:1] == "R" or body.startswith("vRun"):
            self.begin()
            if body[0] == "v":
                self.wire.send("T%02x" % STOPPED)
        elif body[:1] in ("D", "k") or body.startswith("vKill"):
            if body[0] != "k":
                self.wire.send("OK")
            if not self.is_extended:
                sys.exit(0)
            self.is_gone = True
        else:
            return False
        return True

    def serve(self):
        """Answers packets until gdb leaves."""
        while True:
            body = self.wire.packet()
            self.wire.alive = NO_TEXT if body.startswith("qRcmd") else NO_PACKET
            try:
                if body and (self.end_or_begin(body) or self.resume(body)):
                    continue
                said = self.answer(body)
            except GivenUp:
                self.wire.forget()
                continue
            except Interrupted:
                said = "E.interrupted"
            except MemoryError:
                said = "E.out of memory"
            except (ValueError, IndexError):
                said = "E.this packet means nothing"
            self.wire.send(said)

    # ---- commands of the user's

    def monitor(self, words):
        command, number = (words + ["", ""])[:2]
        if len(words) > 2 or (number and not number.isdigit()) or (number and command not in ("turn", "trace")):
            return "monitor help says what there is\n"
        if command == "turn":
            return self.note_turn(int(number)) if number else self.place_of(self.turn)
        if command == "trace":
            return self.trace(int(number or SHOWN))
        if command in ("descs", "blocks"):
            lines = self.timeline.report(self.turn).lines
            return "\n".join(line for line in lines if line.startswith(command[:-1])) + "\n"
        return HELP if command in ("", "help") else "monitor help says what there is\n"

    def place_of(self, turn):
        row = self.timeline.state(turn)
        mode = "protected mode, %d bits" % row.code_bits if row.mode else "real mode"
        return "turn %d: %04x:%08x, %s, depth %d%s\n" % (
            turn, row.cs, row.eip, mode, row.depth, ", at a trap of the host" if row.trap else "")

    def note_turn(self, turn):
        """The run to this turn is made by the next command that runs the client, during which Ctrl-C works."""
        if turn > self.timeline.bound:
            return "the run has at most %d turns (--bound)\n" % self.timeline.bound
        self.jump = turn
        return "type stepi, and gdb is at turn %d\n" % turn

    def trace(self, count):
        report = self.timeline.report(self.turn, 10_000)
        lines = report.trace[-count:] if count else []
        missing = "only the first 10000 lines are kept\n" if report.total > len(report.trace) else ""
        return "".join(line + "\n" for line in lines) + missing + "%d lines up to turn %d\n" % (report.total, self.turn)


def from_hex(word):
    """A number in hexadecimal digits. `int` would take a sign, blanks and underscores, too."""
    if not re.fullmatch("[0-9A-Fa-f]+", word):
        raise ValueError(word)
    return int(word, 16)


def words_of_end(row):
    if row.exit == dpmi.EXITED:
        return "the client ended itself with code %d" % row.exit_number
    if row.exit == dpmi.FAULT:
        return "exception %02Xh with error code %08Xh, which nothing handles" % (row.exit_number, row.exit_code)
    return "the run ended as %s" % dpmi.EXITS[row.exit] + (" (keys are given by --keys)" if dpmi.EXITS[row.exit] == "nokeys" else "")


def answer_of_end(row):
    """What gdb is told of a process that is gone: its code, or the signal that ended it."""
    if row.exit == dpmi.EXITED:
        return "W%02x" % row.exit_number
    return "X%02x" % (SIGNALS.get(row.exit_number, SEGMENT) if row.exit == dpmi.FAULT else KILLED)
