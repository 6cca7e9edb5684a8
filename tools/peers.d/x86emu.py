"""libx86emu's tests in real mode: the memory and the registers that a piece of code starts with, and those that it leaves."""

import re
import shutil
import subprocess

import build
from report import Suite

PACKAGE, PARTS = "libx86emu", ["test/"]
IMAGE, HOME, LOWER = 0x740, 0x98000, 0x80000  # where a client's image begins; where its own code lies, and what a test has at F0000h
REGISTERS = "eax ebx ecx edx esi edi ebp esp eflags".split()
SEGMENTS = "ss ds es fs gs".split()
STATE = ["eax", "ebx", "ecx", "edx", "esi", "edi", "ebp", "esp", *SEGMENTS, "eflags"]
REASONS = [
    ("SF, ZF, AF and PF of IMUL, which are undefined, are kept", r"002[12]_", lambda text: without_bits(text, 0xD4)),
    ("a rotation's count is masked before CF and OF are made; libx86emu masks it afterwards", r"003[23]_", lambda text: without_bits(text, 9)),
]
# The client's own code sets what a test starts with, and jumps to it. At the test's end a far jump, in the place of HLT, leads back here.
CODE = """
bits 16
    cli
    xor ax, ax
    mov ds, ax
    mov word [12], trapped              ; the vector of INT 3
    mov [14], cs
{low}
    mov ah, 2
    sahf
{registers}
    jmp {cs}:{eip}
trapped:
    lea sp, [esp + 6]                   ; which leaves the flags
    times 1000h - ($ - $$) db 90h
    mov [cs:state + 28], esp
    mov [cs:state], eax
    mov [cs:state + 32], ss
    mov ax, cs
    mov ss, ax
    mov esp, stack_end
    pushfd
    pop dword [cs:state + 52]
{saved}
    cld
    mov si, ranges
next:
    cs lodsw
    mov ds, ax
    cs lodsw
    mov dx, ax
    cs lodsw
    mov cx, ax
    jcxz done
    mov bx, 1
    mov ah, 40h
    int 21h
    jmp next
done:
    mov ax, 4C00h
    int 21h
state:
    times 56 db 0
ranges:
    dw {home}, state, 56
{ranges}
    dw 0, 0, 0
    times 200h db 0
stack_end:
"""


def without_bits(text, bits):
    """What one side says, with these bits of each byte cleared."""
    name, _, digits = text.partition(" ")
    return text if name.endswith(":") else name + bytes(byte & ~bits for byte in bytes.fromhex(digits)).hex()


def state_of(text):
    """The registers of a state, and its bytes by address."""
    registers = {name: int(value, 16) for name, value in re.findall(r"\b([a-z]{2,6}(?:\.base)?)=([0-9a-f]+)\b", text)}
    memory = {}
    for address, line in re.findall(r"^([0-9a-f]{8}):(.*)$", text, re.M):
        for place in range(16):
            byte = line[2 + 4 * place:4 + 4 * place].strip()
            if byte:
                memory[int(address, 16) + place] = int(byte, 16)
    for name in SEGMENTS:  # a segment that can't be written here lies lower
        if registers[name] == 0xF000:
            registers[name] = LOWER >> 4
            memory = {address - 0xF0000 + LOWER if address >= 0xF0000 else address: byte for address, byte in memory.items()}
    return registers, memory


def runs_of(addresses):
    """Addresses as runs: the first one and how many."""
    runs = []
    for address in sorted(addresses):
        if runs and sum(runs[-1]) == address and runs[-1][1] < 0x8000:
            runs[-1][1] += 1
        else:
            runs.append([address, 1])
    return runs


def own_code(room, registers, low, ranges):
    """The client's own code, assembled."""
    def sets(name):
        return "    mov ax, %d\n    mov %s, ax" % (registers[name], name)

    general = ["    mov %s, %d" % (name, registers[name]) for name in ("esp", "ebx", "ecx", "edx", "esi", "edi", "ebp", "eax")]
    saved = ["    mov [cs:state + %d], %s" % (4 * place, name) for place, name in enumerate(STATE) if 0 < place < 13 and name not in ("esp", "ss")]
    text = CODE.format(
        low="\n".join("    mov byte [%d], %d" % item for item in sorted(low.items())), cs=registers["cs"], eip=registers["eip"], home=HOME >> 4,
        registers="\n".join([*map(sets, SEGMENTS), *general]), saved="\n".join(saved),
        ranges="\n".join("    dw %d, %d, %d" % (first >> 4, first & 15, count) for first, count in ranges))
    (room / "code.asm").write_text(text)
    build.call(["nasm", "-f", "bin", "-o", room / "code.bin", room / "code.asm"], room)
    return (room / "code.bin").read_bytes()


def client_of(room, before, after):
    """The client of a test, and the ranges that it writes: not what stands in the place of HLT, nor what that pushes."""
    registers, memory = before
    halt = (after[0]["cs"] << 4) + after[0]["eip"] - 1
    jump = bytes([0xEA, 0x00, 0x10]) + (HOME >> 4).to_bytes(2, "little")
    pushed = {(after[0]["ss"] << 4) + (after[0]["esp"] - place) % 0x10000 for place in range(1, 7)}
    if any(halt + place in memory for place in range(1, 5)):
        jump = bytes([0xCC])  # there is room for INT 3 alone
    else:
        pushed = set()
    ranges = runs_of(set(after[1]) - pushed - set(range(halt, halt + len(jump))))
    vectors = {address - registers["idt.base"]: byte for address, byte in memory.items() if 0 <= address - registers["idt.base"] < 0x400}
    code = own_code(room, registers, {**{address: byte for address, byte in memory.items() if address < IMAGE}, **vectors}, ranges)
    image = bytearray(HOME - IMAGE) + code
    for address, byte in memory.items():
        if address >= IMAGE:
            image[address - IMAGE] = byte
    image[halt - IMAGE:halt - IMAGE + len(jump)] = jump
    size = len(image) + 32
    header = [0x5A4D, size % 512, -(-size // 512), 0, 2, 0, 0xFFFF, (HOME >> 4) - 0x74, 0xFFFE, 0, 0, (HOME >> 4) - 0x74, 0x1C, 0, 0, 0]
    (room / "client.exe").write_bytes(b"".join(word.to_bytes(2, "little") for word in header) + image)
    return room / "client.exe", ranges


def outcome(dpmi, room, name, before, after):
    """What the client leaves of the registers and the memory, and what must be there, as texts."""
    program, ranges = client_of(room, before, after)
    ours, exit = build.run_client(dpmi, program)
    registers, memory = after
    wanted = b"".join(registers[it].to_bytes(4, "little") for it in STATE)
    wanted += bytes(memory[first + place] for first, count in ranges for place in range(count))
    return "%s %s" % (name, ours.hex()) if exit == "exited 0" else "%s: %s" % (name, exit), "%s %s" % (name, wanted.hex())


def is_ours(text):
    """The test is one of real mode as DOS has it: 16 bits, limits of 64 KB."""
    limits = re.findall(r"^[c-gs]s=.*limit=([0-9a-f]+)", text, re.M)
    return "; bits=16, mode=real" in text and set(limits) == {"0000ffff"}


def run(folder, version, dpmi, kit, room):
    tests = room / "test"
    shutil.copytree(folder / "test", tests)
    names = sorted(it.stem for it in tests.glob("[0-9]*.done"))
    subprocess.run(["perl", "prepare_test", *(name + ".tst" for name in names)], cwd=tests, capture_output=True, check=True)
    suite = Suite("libx86emu", version, "real mode", REASONS)
    for name in names:
        before, after = ((tests / (name + ending)).read_text() for ending in (".init", ".done"))
        if is_ours(before):
            ours, theirs = outcome(dpmi, room, name, state_of(before), state_of(after))
            suite.count(ours == theirs, ours, theirs)
        else:
            suite.left_out["of protected mode, or of real mode with greater limits"] += 1
    yield suite
