"""A run of `dpmi run`, read from its text; and what the client's memory held at its end, where there is the library."""

import os
import re
import subprocess
import sys
from pathlib import Path

TOP = Path(__file__).resolve().parent.parent.parent
PROVED = TOP / "crates" / "dpmi" / "out" / "dpmi"
UNPROVED = TOP / "out" / "unproved" / "dpmi"
MOST_LINES = 10_000
SEGMENT, IMAGE = 0x74, 0x740  # where the image of a file is loaded: the segment, and its linear address


def program():
    """The program that DPMI_PROGRAM names, or the newer of the two that may be built."""
    given = os.environ.get("DPMI_PROGRAM")
    if given and not os.access(given, os.X_OK):
        sys.exit("DPMI_PROGRAM names no program: %s" % given)
    built = [path for path in (PROVED, UNPROVED) if os.access(path, os.X_OK)]
    if not given and not built:
        sys.exit("there is no program yet: ./dpmi compiles one, ./prove proves it")
    return given or max(built, key=lambda path: path.stat().st_mtime)


def numbers(text):
    """What stands after names, as eax=00000001."""
    return {name: int(value, 16) for name, value in re.findall(r"(\w+)=([0-9a-f]+)", text)}


class Run:
    """`dpmi run FILE OPTION..`, with as many lines of the trace as there may be unless the words say how many."""

    def __init__(self, words, **options):
        words = [str(word) for word in words]
        for name, value in {"trace": MOST_LINES, **options}.items():
            if name in options or not any(re.match("--%s(=|$)" % name, word) for word in words):
                words = without(words, name) + ["--" + name, str(value)]
        self.words = words
        made = subprocess.run([program(), "run", *words], stdin=subprocess.DEVNULL, stdout=subprocess.PIPE, check=False)
        self.status, text = made.returncode, made.stdout
        self.refusal = text.decode("latin-1").removeprefix("refused ").strip() if text.startswith(b"refused ") else None
        self.has_report = text.startswith(b"console ")
        if self.has_report:
            self.read(text)

    def read(self, text):
        size = int(text[8:text.index(b"\n")])
        start = text.index(b"\n") + 1
        self.console = text[start:start + size]
        lines = text[start + size + 1:].decode("latin-1").splitlines()
        kept, self.total = map(int, re.match(r"trace (\d+) of (\d+)", lines[0]).groups())
        self.trace, report = lines[1:1 + kept], lines[2 + kept:]
        found = {line.split()[0]: line.partition(" ")[2] for line in report if not line.startswith(("desc ", "block "))}
        self.exit, self.steps, self.mode, self.depth = found["exit"], int(found["steps"]), found["mode"], int(found["depth"])
        self.regs = numbers(found["regs"])
        self.descriptors = {int(line.split()[1], 16): numbers(line) for line in report if line.startswith("desc ")}

    def base(self, selector, mode=None):
        """The linear address at which a segment begins, where it is known."""
        if (mode or self.mode) == "real":
            return selector << 4
        descriptor = self.descriptors.get(selector | 3)
        return descriptor and descriptor["base"]


def library():
    """The library's module for Python, or nothing where there is no library."""
    if str(TOP / "library") not in sys.path:
        sys.path.append(str(TOP / "library"))
    try:
        import dpmi
    except ImportError:
        return None
    return dpmi


def memory(words, turn, at, size):
    """The bytes that a client sees after a turn, from the library; or nothing where there is none."""
    dpmi = library()
    if dpmi is None:
        return None
    keys, name = bytes.fromhex(option_of(words, "keys") or ""), option_of(words, "keys-file")
    pages, timer = option_of(words, "pages") or 1024, option_of(words, "timer") or 0
    client = dpmi.Client(Path(file_of(words)).read_bytes(), Path(name).read_bytes() if name else keys, int(pages), int(timer))
    return client.memory(turn, at, size)


def without(words, name):
    """The words without an option and its value."""
    left, skip = [], False
    for word in words:
        if skip:
            skip = False
        elif word == "--" + name:
            skip = True
        elif not word.startswith("--%s=" % name):
            left.append(word)
    return left


def file_of(words):
    """The name of the client's file: the argument that is no option and no option's value."""
    skip = False
    for word in words:
        if skip:
            skip = False
        elif word.startswith("--"):
            skip = "=" not in word
        else:
            return word
    return None


def option_of(words, name):
    """The value of an option of `dpmi run`, or nothing."""
    for word, following in zip(words, [*words[1:], None]):
        if word == "--" + name:
            return following
        if word.startswith("--%s=" % name):
            return word.partition("=")[2]
    return None


def put(text):
    """Writes to standard output, and returns the status: 4 where that fails, as `dpmi` does."""
    data = text.encode("utf-8", "replace")
    try:
        while data:
            data = data[os.write(1, data):]
    except OSError as error:
        if not isinstance(error, BrokenPipeError):
            print("the output failed: %s" % error.strerror, file=sys.stderr)
        return 4
    return 0


def image_of(name):
    """The image of an MZ file as it is loaded, before its relocations."""
    file = Path(name).read_bytes()
    word = [int.from_bytes(file[at:at + 2], "little") for at in range(0, 28, 2)]
    length = 512 * word[2] if word[1] in (0, 512) else 512 * (word[2] - 1) + word[1]
    return file[16 * word[4]:length]
