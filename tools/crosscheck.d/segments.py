"""Cases in segments: 16- and 32-bit code, and limits. Each ends with an exception, which for most is that of the HLT after the instruction.

A loop in C (run.c) runs them, as a program of Linux and as a client of DPMI, and leaves for each registers, segments, the vector and the
code of the exception, and which bytes changed.
"""

import struct
import subprocess
import sys
from collections import Counter

from build import HERE, assemble, client, compile_c, console_of, link_native, run
from case import CODE_ROOM, Case, ORDER, SEGMENTS
from families import FAMILIES
from on_purpose import on_purpose
from operations import ARITHMETIC, DF
from shapes import FIRST_INDEX, shapes, windows

LEFT = struct.Struct("<10I6H5I12s")
SLOT = 32


def code_of(room, cases):
    """The bytes of the instruction of each case, with HLT after it."""
    text = "".join(".code%d\n%s\n.balign %d, 0xF4\n" % (case.bits, case.text, SLOT) for case in cases)
    assemble(room, "cases", text)
    run("objcopy", "-O", "binary", "-j", ".text", room / "cases.o", room / "cases.bin")
    code = (room / "cases.bin").read_bytes()
    slots = [code[at:at + SLOT] for at in range(0, len(code), SLOT)]
    if len(slots) != len(cases):
        sys.exit("%d pieces of code for %d cases" % (len(slots), len(cases)))
    return [slot[:CODE_ROOM] for slot in slots]


def program(rng, count, narrow):
    made, cases = shapes(rng), []
    while len(cases) < count:
        case = Case(rng, made, narrow)
        case.text, case.undefined = rng.choice(FAMILIES)(case)
        cases.append(case)
    return made, cases


def table(room, made, cases):
    """The table that run.h describes."""
    parts, code = windows(made), code_of(room, cases)
    head = struct.pack("<4I", FIRST_INDEX * 8 + 7, len(made), len(parts), len(cases))
    return (head + b"".join(shape.packed() for shape in made) + b"".join(struct.pack("<2I", at, (end - at) // 4) for at, end in parts)
            + b"".join(case.packed(own) for case, own in zip(cases, code)))


class Left:
    """What a case left. A client of 16 bits sees ESP's and EIP's low halves alone."""

    def __init__(self, packed, narrow):
        parts = LEFT.unpack(packed)
        self.values = dict(zip(ORDER + ["eip", "flags"] + SEGMENTS, parts))
        for name in ("esp", "eip") if narrow else ():
            self.values[name] &= 0xFFFF
        self.vector, self.error, self.changed, self.first, self.sum, self.bytes = parts[16:]

    def __str__(self):
        words = " ".join("%s=%08x" % (name, self.values[name]) for name in ORDER + ["eip"])
        words += " fl=%03x " % (self.values["flags"] & (ARITHMETIC | DF))
        words += " ".join("%s=%04x" % (name, self.values[name]) for name in SEGMENTS)
        return "exc %02x code %x %s; %d bytes changed, from %05x: %s" % (
            self.vector, self.error, words, self.changed, self.first, self.bytes[:self.changed].hex())


def differ(case, one, two):
    names = [name for name in one.values if name != "flags" and one.values[name] != two.values[name]]
    names += ["flags"] * ((one.values["flags"] ^ two.values["flags"]) & (ARITHMETIC | DF) & ~case.undefined != 0)
    names += ["vector"] * (one.vector != two.vector) + ["error"] * (one.error != two.error)
    return names + ["memory"] * ((one.changed, one.first, one.sum, one.bytes) != (two.changed, two.first, two.sum, two.bytes))


def show(case, one, two):
    names = " ".join("%s: %s" % (name, shape.name if shape else "null") for name, shape in case.segments.items())
    print("%s (%d bits; %s)" % (case.text, case.bits, names))
    print("  from %s eip=%08x fl=%03x" % (" ".join("%s=%08x" % (name, case.values[name]) for name in ORDER), case.eip, case.flags))
    print("  processor: %s\n  dpmi:      %s" % (one, two))


def build(room, made, cases, narrow):
    """The program of Linux and the client, of 16 bits or of 32."""
    (room / "table.bin").write_bytes(table(room, made, cases))
    assemble(room, "table", '.data\n.globl table\n.balign 4\ntable: .incbin "table.bin"\n.section .note.GNU-stack\n')
    for name in ("run", "on_linux", "on_dpmi"):
        compile_c(room, name)
    assemble(room, "handlers", (HERE / "on_dpmi.s").read_text(), *["--defsym", "narrow=1"] * narrow)
    return link_native(room, "on_linux", "run", "table"), client(room, "handlers", "run", "on_dpmi", "table", narrow=narrow)


def check(rng, count, room, dpmi, narrow=False):
    """Makes a program of cases, runs it on both sides, prints the cases that differ, and returns how many do, and how many on purpose."""
    made, cases = program(rng, count, narrow)
    here, there = build(room, made, cases, narrow)
    left, right = subprocess.run([here], capture_output=True, check=True, timeout=60).stdout, console_of(dpmi, there)
    if not len(left) == len(right) == LEFT.size * count + 4:
        sys.exit("%d and %d bytes were left in place of %d" % (len(left), len(right), LEFT.size * count + 4))
    if left[-4:] != right[-4:]:
        sys.exit("bytes differ that lie far from every limit")
    unlike, excused = 0, Counter()
    for case, at in zip(cases, range(0, len(left), LEFT.size)):
        one, two = Left(left[at:at + LEFT.size], narrow), Left(right[at:at + LEFT.size], narrow)
        names = differ(case, one, two)
        if not names:
            continue
        reason = on_purpose(case, one, two, names)
        if reason:
            excused[reason] += 1
        else:
            unlike += 1
            show(case, one, two)
    return unlike, excused
