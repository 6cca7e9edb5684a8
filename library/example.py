#!/usr/bin/env python3
"""Tests an emulator's step against the proved host's: each turn of a client's run is a test case, a state before it and one after it.

    library/example.py FILE [TURNS] [--wrong]

The emulator here is a toy that knows a few instructions: MOV, ADD, SUB and CMP of registers and numbers, INC, DEC, NOP, JMP and Jcc. Yours
goes in the place of `step`. With --wrong the toy forgets the auxiliary carry. The status is 1 where a turn differs, 2 where the client is
refused, 3 where its file can't be read.
"""

import argparse
import sys
from pathlib import Path

sys.dont_write_bytecode = True
sys.path.insert(0, str(Path(__file__).resolve().parent))
try:
    import dpmi
except ImportError as error:
    sys.exit("example.py: %s" % error)

NAMES = "eax ecx edx ebx esp ebp esi edi".split()
COMPARED = [*NAMES, "eip", "flags", "es", "cs", "ss", "ds", "fs", "gs", "mode"]
CARRY, PARITY, AUXILIARY, ZERO, SIGN, OVERFLOW = 1, 4, 16, 64, 128, 2048
PART, LONGEST = 50, 6  # the turns of a call, and the bytes of the toy's longest instruction


class Toy:
    """A processor with the registers of a state."""

    def __init__(self, state, code, is_wrong):
        self.values = {name: getattr(state, name) for name in COMPARED}
        self.code, self.bits, self.is_wrong = code, state.code_bits, is_wrong

    def get(self, number, bits):
        if bits == 8 and number >= 4:  # AH, CH, DH, BH
            return self.values[NAMES[number - 4]] >> 8 & 0xFF
        return self.values[NAMES[number]] & ((1 << bits) - 1)

    def set(self, number, bits, value):
        shift = 8 if bits == 8 and number >= 4 else 0
        name, mask = NAMES[number - 4 if shift else number], (1 << bits) - 1 << shift
        self.values[name] = self.values[name] & ~mask | value << shift & mask

    def set_flags(self, flags, kept=0):
        changed = (CARRY | PARITY | AUXILIARY | ZERO | SIGN | OVERFLOW) & ~kept
        self.values["flags"] = self.values["flags"] & ~changed | flags & changed

    def sum(self, a, b, bits, is_minus=False, kept=0):
        """a + b or a - b, with its flags."""
        full = a - b if is_minus else a + b
        result, top = full & (1 << bits) - 1, 1 << bits - 1
        overflows = (a ^ b) & (a ^ result) if is_minus else ~(a ^ b) & (a ^ result)
        self.set_flags(
            CARRY * (full != result) | PARITY * (bin(result & 0xFF).count("1") % 2 == 0)
            | (a ^ b ^ result) & AUXILIARY * (not self.is_wrong) | ZERO * (result == 0)
            | SIGN * bool(result & top) | OVERFLOW * bool(overflows & top), kept)
        return result

    def holds(self, condition):
        flags = self.values["flags"]
        less = bool(flags & SIGN) != bool(flags & OVERFLOW)
        asked = [flags & OVERFLOW, flags & CARRY, flags & ZERO, flags & (CARRY | ZERO), flags & SIGN, flags & PARITY, less,
                 less or flags & ZERO][condition >> 1]
        return bool(asked) != bool(condition & 1)

    def step(self):
        """Carries out the instruction, if it is a known one, and returns its length; else returns None."""
        op = self.code[0]
        has_bytes = op & 0xF8 == 0xB0 or op & 0xF1 in (0x00, 0x20, 0x30, 0x80)
        bits = 8 if has_bytes else self.bits
        size = bits // 8
        if 0xB0 <= op <= 0xBF:  # MOV of a number
            self.set(op & 7, bits, int.from_bytes(self.code[1:1 + size], "little"))
            return 1 + size
        if 0x40 <= op <= 0x4F:  # INC, DEC
            self.set(op & 7, bits, self.sum(self.get(op & 7, bits), 1, bits, op >= 0x48, CARRY))
            return 1
        if 0x70 <= op <= 0x7F or op == 0xEB:  # Jcc, JMP
            if op == 0xEB or self.holds(op & 15):
                self.values["eip"] += int.from_bytes(self.code[1:2], "little", signed=True)
            return 2
        if op in (0x04, 0x05, 0x2C, 0x2D, 0x3C, 0x3D):  # ADD, SUB, CMP of AL, AX or EAX and a number
            result = self.sum(self.get(0, bits), int.from_bytes(self.code[1:1 + size], "little"), bits, op > 5)
            if op < 0x3C:
                self.set(0, bits, result)
            return 1 + size
        if op & ~3 in (0x00, 0x28, 0x38, 0x88) and self.code[1] >= 0xC0:  # ADD, SUB, CMP, MOV of two registers
            to, other = self.code[1] & 7, self.code[1] >> 3 & 7
            if op & 2:
                to, other = other, to
            result = self.get(other, bits)
            if op < 0x88:
                result = self.sum(self.get(to, bits), result, bits, op >= 0x28)
            if op & ~3 != 0x38:
                self.set(to, bits, result)
            return 2
        return 1 if op == 0x90 else None


def predict(state, code, is_wrong):
    """What a state's registers will be, or None after an instruction that the toy doesn't know."""
    toy = Toy(state, code, is_wrong)
    length = toy.step()
    if length is None:
        return None
    toy.values["eip"] = toy.values["eip"] + length & (1 << toy.bits) - 1
    return toy.values


def cases(client, turns):
    """Pairs of states, each with the code at its CS:EIP; not those from which the host works, or delivers an exception."""
    for first in range(0, turns, PART):
        numbers = range(first, min(first + PART, turns) + 1)
        places = [state.instruction + k & 0xFFFFFFFF for state in client.states(numbers) for k in range(LONGEST)]
        states = client.states(numbers, places)
        for number, (state, after) in enumerate(zip(states, states[1:])):
            code = dpmi.prefix(state.seen[LONGEST * number:LONGEST * (number + 1)])
            if state.exit:
                return
            if not state.trap and state.depth == after.depth and len(code) == LONGEST:
                yield first + number + 1, code, state, after


def arguments():
    options = argparse.ArgumentParser(description="Tests a toy emulator's instructions against the host's.")
    options.add_argument("file", metavar="FILE", type=Path, help="a client, as clients/watch.exe")
    options.add_argument("turns", metavar="TURNS", type=int, nargs="?", default=10_000, help="how many turns, 10,000 without it")
    options.add_argument("--wrong", action="store_true", help="the toy forgets the auxiliary carry")
    return options.parse_args()


def first_difference(client, given):
    """Compares turn by turn, and prints the first turn that differs, or how many agree. Returns whether one differs."""
    agreed = unknown = 0
    for turn, code, state, after in cases(client, given.turns):
        predicted = predict(state, code, given.wrong)
        differing = [name for name in COMPARED if predicted and predicted[name] != getattr(after, name)]
        if differing:
            print("turn %d, %04x:%08x, code %s:" % (turn, state.cs, state.eip, code.hex(" ")))
            for name in differing:
                print("  %s is %08x, then %08x; here %08x" % (name, getattr(state, name), getattr(after, name), predicted[name]))
            return True
        agreed, unknown = agreed + (predicted is not None), unknown + (predicted is None)
    print("%d instructions agree, %d aren't known to the toy" % (agreed, unknown))
    return False


def main():
    given = arguments()
    try:
        return int(first_difference(dpmi.Client(given.file.read_bytes()), given))
    except OSError as error:
        print("example.py: %s: %s" % (error.filename or "the output", error.strerror), file=sys.stderr)
        return 3 if error.filename else 4
    except dpmi.Refused as error:
        print("example.py: %s is refused: %s" % (given.file, error), file=sys.stderr)
        return 2


if __name__ == "__main__":
    sys.exit(main())
