"""Cases of flat code of 32 bits, many in one program: what each leaves, it leaves on the stack.

The same text is assembled as a program of Linux and as a flat client of 32 bits. No case faults.
"""

import subprocess
import sys
from collections import Counter

from build import assemble, client, console_of, link_native
from on_purpose import adjusts_whole_ax
from operations import ARITHMETIC, REGISTERS, SHARED, WIDE

NAMES = ["edi", "esi", "ebp", "esp", "ebx", "edx", "ecx", "eax"]  # as PUSHAD leaves them, from the stack pointer up
MEMORY = {32: "dword ptr [esp-64]", 16: "word ptr [esp-64]", 8: "byte ptr [esp-64]"}
NUMBERS = [0, 1, 0x7F, 0x80, 0xFFFF, 0x8000, 0x7FFFFFFF, 0x80000000, 0xFFFFFFFF]


class Case:
    """What a family of instructions chooses its operands from."""

    def __init__(self, rng):
        self.rng = rng
        self.first = []  # instructions that come right before

    def register(self, width):
        return self.rng.choice(REGISTERS[width])

    def memory(self, width):
        return MEMORY[width]

    def operand(self, width):
        return self.memory(width) if self.rng.random() < 0.3 else self.register(width)

    def set(self, register, number):
        self.first.append("mov %s, 0x%x" % (register, number))


def division(case):
    """With a quotient that fits: the high half is 0 or the sign."""
    width = case.rng.choice([32, 16, 8])
    divisor = {32: "ebx", 16: "bx", 8: "bl"}[width]
    if case.rng.random() < 0.5:
        case.first += ["or %s, 1" % divisor, {32: "xor edx, edx", 16: "xor dx, dx", 8: "mov ah, 0"}[width]]
        return "div " + divisor, ARITHMETIC
    case.first += ["or ebx, 2", "and ebx, 0x7f7f7f7f", {32: "cdq", 16: "cwd", 8: "cbw"}[width]]
    return "idiv " + divisor, ARITHMETIC


def string(case):
    """Strings on the stack; pointers are then turned into distances, which changes the flags."""
    name = case.rng.choice(["movsb", "movsw", "movsd", "stosb", "stosw", "stosd", "lodsb", "lodsw", "lodsd"])
    repeat = "rep " if name[0] != "l" and case.rng.random() < 0.7 else ""
    case.first += ["lea esi, [esp-64]", "lea edi, [esp-68]", "mov ecx, %d" % case.rng.randrange(5)]
    return repeat + name + "; sub esi, esp; sub edi, esp", ARITHMETIC


FAMILIES = SHARED + [division, string]


def program(rng, cases):
    """The text of all cases, which leave what they did on the stack, and each one's text and mask of flags."""
    lines, told = [], []
    for _ in range(cases):
        case = Case(rng)
        text, undefined = rng.choice(FAMILIES)(case)
        values = [(register, rng.choice(NUMBERS + [rng.getrandbits(32)])) for register in WIDE]
        memory, flags = rng.getrandbits(32), rng.getrandbits(12) & ARITHMETIC
        lines += ["mov %s, 0x%x" % pair for pair in values]
        lines += ["mov dword ptr [esp-68], 0x%x" % rng.getrandbits(32), "mov dword ptr [esp-64], 0x%x" % memory]
        lines += ["push 0x%x" % (flags | 2), "popfd"] + case.first + [text, "pushfd", "pushad", "push dword ptr [esp-28]"]
        told.append(("; ".join(case.first + [text]), dict(values), memory, flags, ARITHMETIC & ~undefined))
    return lines, told


# The end of the stack of a client's cases, in DOS memory above its image.
TOP = 0x9F000

NATIVE = """.globl _start
_start: mov esp, offset top
%s
mov ecx, esp
mov edx, offset top
sub edx, ecx
mov ebx, 1
mov eax, 4
int 0x80
mov eax, 1
xor ebx, ebx
int 0x80
.bss
.space 0x40000
top:
"""

# The client writes its stack to the console, byte by byte.
CLIENT = """main: mov eax, offset old
mov [eax], esp
mov esp, %d
%s
mov esi, esp
next: cmp esi, %d
jae done
mov ah, 2
mov dl, [esi]
int 0x21
inc esi
jmp next
done: mov eax, offset old
mov esp, [eax]
xor eax, eax
ret
old: .long 0
"""


def native(room, lines):
    """What the processor of this machine leaves."""
    assemble(room, "native", ".code32\n" + NATIVE % "\n".join(lines))
    return subprocess.run([link_native(room, "native")], capture_output=True, check=True).stdout


def hosted(room, lines, dpmi):
    """What the client leaves."""
    assemble(room, "client", ".code32\n.globl main\n" + CLIENT % (TOP, "\n".join(lines), TOP))
    return console_of(dpmi, client(room, "client"))


def case_of(bytes_left):
    words = [int.from_bytes(bytes_left[at:at + 4], "little") for at in range(0, 40, 4)]
    return words[0], dict(zip(NAMES, words[1:9])), words[9]


def compare(left, right, told):
    """Prints the cases that differ, and returns how many do and how many differ on purpose."""
    if len(left) != 40 * len(told) or len(right) != len(left):
        sys.exit("%d and %d bytes were left in place of %d" % (len(left), len(right), 40 * len(told)))
    unlike, excused = 0, Counter()
    for number, (text, values, memory, flags, mask) in enumerate(told):
        at = len(left) - 40 * (number + 1)
        (m1, r1, f1), (m2, r2, f2) = case_of(left[at:at + 40]), case_of(right[at:at + 40])
        names = [name for name in NAMES if name != "esp" and r1[name] != r2[name]]
        if names == ["eax"] and adjusts_whole_ax(text, r1["eax"], r2["eax"]):
            excused["adjusts_whole_ax"] += 1
        elif m1 != m2 or names or (f1 ^ f2) & mask:
            unlike += 1
            print("%s\n  from %s mem=%08x fl=%03x" % (text, " ".join("%s=%08x" % pair for pair in values.items()), memory, flags))
            print("  processor: %s mem=%08x fl=%03x" % (" ".join("%s=%08x" % (name, r1[name]) for name in names), m1, f1 & mask))
            print("  dpmi:      %s mem=%08x fl=%03x" % (" ".join("%s=%08x" % (name, r2[name]) for name in names), m2, f2 & mask))
    return unlike, excused


def check(rng, cases, room, dpmi):
    """Makes a program of cases, runs it on both sides, and returns how many cases differ, and how many on purpose."""
    lines, told = program(rng, cases)
    return compare(native(room, lines), hosted(room, lines, dpmi), told)
