"""The families of instructions that only cases in segments have: moves, strings, the stack, transfers, segment registers, exceptions."""

from case import CODE_ROOM, SEGMENTS, wide_part
from operations import ARITHMETIC, CONDITIONS, DF, SHARED, UNDEFINED, any_width, word_or_double

# What no case has, and why: it isn't the same on both sides.
LEFT_OUT = {
    "INT, INT 3, INTO that is taken": "software interrupts: the client's vectors under DPMI, system calls and signals under Linux",
    "CLI, STI, IN, OUT": "the virtual interrupt flag, and no ports; Linux has no I/O privilege and they fault",
    "SGDT, SIDT, SLDT, STR, SMSW": "invalid opcodes here; the processor has them, or Linux emulates them",
    "the coprocessor, test registers": "there is no coprocessor here, and later processors have no test registers",
    "PUSH of a segment register with 32 bits": "later processors write the low word alone",
    "TF, NT and flags above it in an image": "flags that aren't among the seven that clients see",
    "selectors of the GDT": "they are Linux's own descriptors",
    "null selectors 1 to 3, a null SS": "a return to user mode clears the selectors, and takes no null SS",
    "page faults of code and of page tables": "the code lies in one piece, and the tables are Linux's own",
    "conforming and execute-only code": "function 0009h makes neither",
    "opcodes that later processors gave a meaning": "they are invalid here",
}

LOADABLE = ["ds", "es", "fs", "gs", "ss"]
PUSH_SEGMENT = {"es": [0x06], "cs": [0x0E], "ss": [0x16], "ds": [0x1E], "fs": [0x0F, 0xA0], "gs": [0x0F, 0xA8]}
POP_SEGMENT = {"es": [0x07], "ss": [0x17], "ds": [0x1F], "fs": [0x0F, 0xA1], "gs": [0x0F, 0xA9]}


def little(number, size):
    return (number % 256**size).to_bytes(size, "little")


def move(case):
    width, kind = any_width(case), case.rng.randrange(6)
    size = width // 8
    if kind == 0:
        return "mov %s, %s" % (case.register(width), case.memory(size)), 0
    if kind == 1:
        return "mov %s, %s" % (case.memory(size), case.register(width)), 0
    if kind == 2:
        return "mov %s, 0x%x" % (case.operand(width), case.rng.getrandbits(width)), 0
    if kind == 3:
        return "xchg %s, %s" % (case.operand(width), case.register(width)), 0
    if kind == 4:
        return "lea %s, %s" % (case.register(word_or_double(case)), case.memory(8)), 0
    address, segment = word_or_double(case), case.rng.choice([None] + SEGMENTS)
    at = case.offset(case.segments[segment or "ds"], 1) - case.value("al")
    case.set("ebx" if address == 32 else "bx", at)
    if wide_part("al")[0] == "ebx":
        return move(case)
    return case.coded("xlat", [0xD7], address=address, segment=segment), 0


def division(case):
    return "%s %s" % (case.rng.choice(["div", "idiv"]), case.operand(any_width(case))), ARITHMETIC


def bit_string(case):
    """An offset in a register, which moves a place in memory."""
    name, width = case.rng.choice(["bt", "bts", "btr", "btc"]), word_or_double(case)
    register, offset = case.register(width), case.rng.choice([case.rng.randrange(-300, 300), case.rng.getrandbits(width)])
    case.set(register, offset)
    signed = case.value(register) - (case.value(register) >> width - 1 << width)
    return "%s %s, %s" % (name, case.memory(width // 8, moved=signed // width * (width // 8)), register), UNDEFINED[name]


STRINGS = {"movs": (0xA4, "si di"), "cmps": (0xA6, "si di"), "stos": (0xAA, "di"), "lods": (0xAC, "si"), "scas": (0xAE, "di")}


def string(case):
    """With a counter of a few elements, from an edge on or towards it."""
    rng, name, width = case.rng, case.rng.choice(list(STRINGS)), any_width(case)
    opcode, pointers = STRINGS[name]
    segment, repeat = rng.choice([None, None] + SEGMENTS), rng.choice([None, 0xF2, 0xF3, 0xF3])
    segments = {"si": segment or "ds", "di": "es"}
    if rng.random() < 0.3:
        if segment not in ("cs", "ss"):
            case.segments[segments["si"]] = case.segments["es"]
    size, address = width // 8, word_or_double(case)
    places = {}
    for pointer in pointers.split():
        shape = case.segments[segments[pointer]]
        places[pointer] = case.offset(shape, size)
        if shape and rng.random() < 0.5:
            elements = rng.randrange(5) * size - rng.randrange(2) * rng.randrange(size)
            places[pointer] = (shape.low + elements if case.flags & DF else shape.high + 1 - elements) % (2**32 if shape.is_big else 2**16)
        address = 32 if places[pointer] >= 0x10000 else address
    for pointer in places:
        case.set("e" + pointer if address == 32 else pointer, places[pointer])
    if repeat:
        case.set("ecx" if address == 32 else "cx", rng.randrange(7))
    text = {None: "", 0xF2: "repne ", 0xF3: "rep "}[repeat] + name + "_bwd"[size.bit_length()]
    return case.coded(text, [opcode + (width > 8)], width, address, segment, repeat), 0


def push_or_pop(case):
    width, kind = word_or_double(case), case.rng.randrange(6)
    size = width // 8
    if kind == 0:
        return "push %s" % case.register(width), 0
    if kind == 1:
        return "push %s" % case.memory(size), 0
    if kind == 2:
        return case.coded("push number", [0x68], width, tail=little(case.rng.getrandbits(width), size)), 0
    if kind == 3:
        return "pop %s" % case.register(width), 0
    if kind == 4:
        return case.coded("push byte", [0x6A], width, tail=little(case.rng.getrandbits(8), 1)), 0
    return pop_to_memory(case, size)


def pop_to_memory(case, size):
    """An address with ESP is taken after the pop."""
    before, wrap = case.values["esp"], 2**32 if case.segments["ss"].is_big else 2**16
    case.values["esp"] = before - before % wrap + (before + size) % wrap
    text = "pop %s" % case.memory(size)
    case.values["esp"] = before
    return text, 0


def stack_frame(case):
    width, kind = word_or_double(case), case.rng.randrange(6)
    if kind == 0:
        return case.coded("pusha", [0x60], width), 0
    if kind == 1:
        return case.coded("popa", [0x61], width), 0
    if kind == 2:
        return case.coded("pushf", [0x9C], width), 0
    if kind == 3:
        case.push(width, case.rng.getrandbits(12) & (ARITHMETIC | DF) | 2)
        return case.coded("popf", [0x9D], width), 0
    case.values["ebp"] = case.stack_place() if case.rng.random() < 0.5 else case.values["esp"]
    if kind == 4:
        return case.coded("leave", [0xC9], width), 0
    level = case.rng.choice([0, 0, 1, 2, 3, 32, 33])
    return case.coded("enter", [0xC8], width, tail=little(case.rng.randrange(40), 2) + bytes([level])), 0


def target(case, shape=None):
    """An offset of code, inside or about the limit, but not in the case's own bytes, where it might go round for ever."""
    high = (shape or case.segments["cs"]).high
    while True:
        at = case.rng.randrange(high + 1) if case.rng.random() < 0.7 else high + case.rng.randrange(-1, 3)
        if not 0 <= at - case.eip < CODE_ROOM:
            return at


def relative(case, name, short, near, address=0):
    """A transfer by a distance: the opcode with a byte, or with a number of the operand's size."""
    width = word_or_double(case)
    if near is None or short and case.rng.random() < 0.5:
        distance = case.rng.choice([case.rng.randrange(128), case.rng.randrange(128, 256 - 5)])
        return case.coded(name + " short", short, width, address, tail=bytes([distance])), 0
    length = case.length(case.coded(name, near, width, tail=bytes(width // 8)))
    return case.coded(name, near, width, tail=little(target(case) - case.eip - length, width // 8)), 0


def own_size(case, width):
    """Where the assembler would take another instruction by the operand's size, the prefix is written out."""
    return ".byte 0x66; " if width != case.bits else ""


def bare(place):
    return place.split(" ptr ")[-1]


def near(case):
    width, kind = word_or_double(case), case.rng.randrange(7)
    if kind == 0:
        return relative(case, *case.rng.choice([("jmp", [0xEB], [0xE9]), ("call", None, [0xE8])]))
    if kind == 1:
        number = case.rng.randrange(16)
        return relative(case, "j" + CONDITIONS[number], [0x70 + number], [0x0F, 0x80 + number])
    if kind == 2:
        address = word_or_double(case)
        case.set("ecx" if address == 32 else "cx", case.rng.choice([0, 1, 2, case.rng.getrandbits(16)]))
        return relative(case, *case.rng.choice([("loopne", [0xE0]), ("loope", [0xE1]), ("loop", [0xE2]), ("jcxz", [0xE3])]), None, address)
    if kind == 3:
        case.push(width, target(case))
        return case.coded("ret", [0xC3], width), 0
    if kind == 4:
        case.push(width, target(case))
        return case.coded("ret number", [0xC2], width, tail=little(case.rng.randrange(64), 2)), 0
    name = case.rng.choice(["jmp", "call"])
    if kind == 5:
        register = case.register(width)
        case.set(register, target(case))
        return "%s %s" % (name, register), 0
    place = case.memory(width // 8, contents=little(target(case), width // 8))
    return own_size(case, width) + "%s %s%s" % (name, {16: "word ptr ", 32: "dword ptr "}[case.bits], bare(place)), 0


def any_selector(case, kinds=lambda shape: True):
    """Mostly of a shape; else null, or of no descriptor. Its privilege level is mostly 3."""
    random = case.rng.random()
    if random < 0.1:
        return case.rng.choice([0, 0, 0x964, 0xFFF7]), None
    shape = case.rng.choice([shape for shape in case.made if kinds(shape)] if random < 0.8 else case.made)
    return shape.selector - case.rng.choice([0, 0, 0, 0, 1, 2, 3]), shape


def far(case):
    width, kind = word_or_double(case), case.rng.randrange(5)
    selector, shape = any_selector(case, lambda shape: shape.is_code)
    to, size = target(case, shape), width // 8
    pointer = little(to, size) + little(selector, 2)
    if kind == 0:
        name, opcode = case.rng.choice([("jmp far", 0xEA), ("call far", 0x9A)])
        return case.coded(name, [opcode], width, tail=pointer), 0
    if kind == 1:
        return own_size(case, width) + "%s %s" % (case.rng.choice(["ljmp", "lcall"]), bare(case.memory(size + 2, contents=pointer))), 0
    case.push(width, to, selector, case.rng.getrandbits(12) & (ARITHMETIC | DF) | 0x202)
    if kind == 2:
        return case.coded("retf", [0xCB], width), 0
    if kind == 3:
        return case.coded("retf number", [0xCA], width, tail=little(case.rng.randrange(64), 2)), 0
    return case.coded("iret", [0xCF], width), 0


def segment_load(case):
    name, width, kind = case.rng.choice(LOADABLE), word_or_double(case), case.rng.randrange(5)
    wants = (lambda shape: shape.is_stack) if name == "ss" else (lambda shape: True)
    selector, _ = any_selector(case, wants)
    if kind == 0:
        register = case.register(16)
        case.set(register, selector)
        return "mov %s, %s" % (name, register), 0
    if kind == 1:
        return "mov %s, %s" % (name, case.memory(2, contents=little(selector, 2))), 0
    if kind == 2:
        case.push(width, selector)
        return case.coded("pop " + name, POP_SEGMENT[name], width), 0
    pointer = little(case.rng.getrandbits(width), width // 8) + little(selector, 2)
    return "l%s %s, %s" % (name, case.register(width), bare(case.memory(width // 8 + 2, contents=pointer))), 0


def segment_store(case):
    name = case.rng.choice(SEGMENTS)
    if case.rng.random() < 0.5:
        return case.coded("push " + name, PUSH_SEGMENT[name], 16), 0
    return "mov %s, %s" % (case.memory(2) if case.rng.random() < 0.5 else case.register(word_or_double(case)), name), 0


def question(case):
    selector, _ = any_selector(case)
    kind, register, memory = case.rng.randrange(3), case.register(16), case.rng.random() < 0.5
    if kind == 2:
        contents = little(case.rng.getrandbits(16), 2)
        return "arpl %s, %s" % (case.memory(2, contents=contents) if memory else case.register(16), register), 0
    case.set(register, selector)
    source = case.memory(2, contents=little(selector, 2)) if memory else register
    if kind == 0:
        return "%s %s" % (case.rng.choice(["verr", "verw"]), source), 0
    wide = case.register(word_or_double(case))
    if wide_part(wide)[2] == 32 and not memory:
        source = wide_part(register)[0]
    return "%s %s, %s" % (case.rng.choice(["lar", "lsl"]), wide, source), 0


RAISING = ["hlt", "clts", "lgdt [bx]", "lidt [bx]", "lmsw ax", "lldt ax", "ltr ax", "mov eax, cr0", "mov cr3, eax", "mov eax, dr7", "ud2",
           ".byte 0xFE, 0xD0 # group 4", ".byte 0xFF, 0xF8 # group 5", ".byte 0x8D, 0xC0 # lea of a register",
           ".byte 0x8C, 0xF0 # mov from segment 6",
           ".byte 0x8E, 0xC8 # mov to CS", ".byte 0xF0, 0x90 # lock nop", ".byte 0xF0, 0x01, 0xC0 # lock add to a register",
           ".byte 0xF0, 0x8B, 0x07 # lock mov", ".byte 0xD4, 0x00 # aam 0", "insb", "outsb", ".byte 0x0F, 0x04 # no opcode", "nop", "cld",
           "std",
           ".byte 0x66, 0x66, 0x66, 0x66, 0x66, 0x66, 0x66, 0x66, 0x66, 0x66, 0x66, 0x66, 0x66, 0x66, 0x90 # 15 bytes",
           ".byte 0x67, 0x67, 0x67, 0x67, 0x67, 0x67, 0x67, 0x67, 0x67, 0x67, 0x67, 0x67, 0x67, 0x67, 0x67, 0x90 # 16 bytes"]


def raising(case):
    kind = case.rng.randrange(4)
    if kind < 2:
        return case.rng.choice(RAISING), ARITHMETIC
    width = word_or_double(case)
    size = width // 8
    if kind == 2:
        bounds = sorted([case.rng.randrange(-100, 100), case.rng.randrange(-100, 100)])
        register = case.register(width)
        case.set(register, case.rng.choice([bounds[0] - 1, bounds[0], bounds[1], bounds[1] + size, bounds[1] + size + 1]))
        return "bound %s, %s" % (register, case.memory(2 * size, contents=little(bounds[0], size) + little(bounds[1], size))), 0
    name = case.rng.choice("add adc sub sbb and or xor inc dec neg not".split())
    operand = case.memory(size)
    second = "" if name in ("inc", "dec", "neg", "not") else ", " + case.register(width)
    return "lock %s %s%s" % (name, operand, second), UNDEFINED.get(name, 0)


FAMILIES = SHARED + [division, move, move, bit_string, string, string, push_or_pop, push_or_pop, stack_frame, near, near, far, segment_load,
                     segment_store, question, raising]
