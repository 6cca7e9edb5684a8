"""gdb's packets over standard input and output, and calls of the library during which the input is watched.

gdb asks one thing at a time, and waits for the answer only so long: three times its `remotetimeout`. Each byte that comes starts that time
again, so a long answer is preceded by bytes that mean nothing. Where gdb gave up all the same, or has asked the next thing, the answer isn't
sent. Should one come too late, gdb throws it away, because here it is told of each packet that it came (`+`): so none is taken for another.
"""

import os
import queue
import select
import sys
import threading

INTERRUPT = b"\x03"
LONGEST = 1 << 16
PAUSE = 0.5  # seconds from one sign of life to the next
TRIES = 3  # after so many `-` gdb has given up


class Interrupted(Exception):
    """The user pressed Ctrl-C."""


class GivenUp(Exception):
    """gdb doesn't wait for this answer any more."""


def framed(text):
    data = text.encode("latin1")
    return b"$" + data + b"#%02x" % (sum(data) & 0xFF)


# Signs of life: a byte that means nothing; and an empty text for the user, at which gdb sees a Ctrl-C. It takes texts after a command of
# the user's alone, and doesn't give up there.
NO_PACKET, NO_TEXT = b"+", framed("O")


class Wire:
    """Packets: `$` and a text, `#` and the sum of its bytes, answered by `+`, or by `-` where the sum is wrong."""

    def __init__(self):
        self.data, self.sent = b"", b""
        self.alive, self.refused = b"", 0  # the sign of life, where gdb doesn't wait without end; how many `-` came for an answer
        self.bell = os.pipe()  # a byte of a thread's means that it has a result

    def read(self):
        try:
            got = os.read(0, LONGEST)
        except OSError:
            got = b""
        if not got:
            os._exit(0)  # gdb has gone; a call that is under way ends with this process
        self.data += got

    def write(self, data):
        try:
            while data:
                data = data[os.write(1, data):]
        except BrokenPipeError:
            os._exit(0)
        except OSError as error:
            say("the output failed: %s" % error.strerror)
            os._exit(4)

    def packet(self):
        """The text of the next packet. A Ctrl-C that came too late is forgotten."""
        self.refused = 0
        while True:
            start = self.data.find(b"$")
            if b"-" in (self.data[:start] if start >= 0 else self.data):
                self.write(self.sent)
            self.data = self.data[start:] if start >= 0 else b""
            end = self.data.find(b"#")
            if start < 0 or end < 0 or len(self.data) < end + 3:
                self.data = self.data if len(self.data) < LONGEST else b""
                self.read()
                continue
            body, told, self.data = self.data[1:end], self.data[end + 1:end + 3], self.data[end + 3:]
            is_whole = told.lower() == b"%02x" % (sum(body) & 0xFF)
            self.write(b"+" if is_whole else b"-")
            if is_whole:
                return body.decode("latin1")

    def send(self, text):
        self.sent = framed(text)
        self.write(self.sent)

    def forget(self):
        """Nobody waits for the answer to the packet under way, so none is to be sent again."""
        self.sent = b""

    def show(self, data):
        """Has gdb print these bytes, which it does only while the client runs."""
        for at in range(0, len(data), LONGEST // 4):
            self.send("O" + data[at:at + LONGEST // 4].hex())

    def attend(self, *calls, heard=None):
        """Makes these calls, each in a thread of its own, and gives their results; `heard` gets each as it comes, with its call's number.
        Meanwhile it sees gdb's end, and raises Interrupted or GivenUp; the calls go on then, but nobody hears of them."""
        results, done = [None] * len(calls), queue.SimpleQueue()

        def make(number):
            try:
                done.put((number, calls[number](), None))
            except Exception as error:  # raised again below, in the thread that asked
                done.put((number, None, error))
            os.write(self.bell[1], b"\0")

        for number in range(len(calls)):
            threading.Thread(target=make, args=(number,), daemon=True).start()
        for _ in calls:
            while done.empty():
                self.wait()
            self.heed()
            number, results[number], error = done.get()
            if error:
                raise error
            if heard:
                heard(number, results[number])
        return results

    def wait(self):
        """Waits for a thread's bell, or for what gdb sends."""
        self.heed()
        ready = select.select([0, self.bell[0]], [], [], PAUSE if self.alive else None)[0]
        if not ready:
            self.write(self.alive)
        if self.bell[0] in ready:
            os.read(self.bell[0], 1)
        if 0 in ready:
            self.read()

    def heed(self):
        """Looks at what gdb sent while an answer is made: Ctrl-C, `-` for an answer that it lacks, or the next packet."""
        start = self.data.find(b"$")
        before = self.data[:start] if start >= 0 else self.data
        self.data = self.data[len(before):]
        self.refused += before.count(b"-")
        if INTERRUPT in before:
            raise Interrupted
        if self.alive and (start >= 0 or self.refused >= TRIES and self.alive != NO_TEXT):
            raise GivenUp


def say(text):
    print("dpmi:", text, file=sys.stderr, flush=True)
