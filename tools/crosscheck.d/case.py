"""A case: registers, segments, one instruction, and what lies in memory for it."""

from operations import ARITHMETIC, DF, REGISTERS, WIDE

NUMBERS = [0, 1, 0x7F, 0x80, 0xFFFF, 0x8000, 0x7FFFFFFF, 0x80000000, 0xFFFFFFFF]
ORDER = ["edi", "esi", "ebp", "esp", "ebx", "edx", "ecx", "eax"]
SEGMENTS = ["cs", "ss", "ds", "es", "fs", "gs"]
OVERRIDE = {"es": 0x26, "cs": 0x2E, "ss": 0x36, "ds": 0x3E, "fs": 0x64, "gs": 0x65}
SIZE = {1: "byte ptr ", 2: "word ptr ", 4: "dword ptr ", 6: "", 8: ""}
FORMS_16 = ["bx+si", "bx+di", "bp+si", "bp+di", "si", "di", "bp", "bx", ""]
CODE_ROOM, POKE_ROOM, POKES = 20, 15, 2


def wide_part(name):
    """The wide register of a name, the first bit of the part, and its width."""
    if name[0] == "e":
        return name, 0, 32
    if name[1] in "lh":
        return "e%sx" % name[0], 8 * (name[1] == "h"), 8
    return "e" + name, 0, 16


class Case:
    def __init__(self, rng, made, narrow):
        self.rng, self.made, self.narrow = rng, made, narrow
        code = rng.choice([shape for shape in made if shape.is_code and shape.is_present])
        self.bits = 32 if code.is_big else 16
        self.segments = {"cs": code, "ss": rng.choice([shape for shape in made if shape.is_stack])}
        loadable = [shape for shape in made if shape.is_present]
        for name in SEGMENTS[2:]:
            self.segments[name] = rng.choice(loadable) if rng.random() < 0.97 else None
        self.values = {name: rng.choice(NUMBERS + [rng.getrandbits(32)] * 6) for name in WIDE}
        self.values["esp"] = self.stack_place()
        self.flags = rng.getrandbits(12) & ARITHMETIC | (DF if rng.random() < 0.3 else 0) | 0x202
        self.eip = rng.randrange(0x20, code.high - 0x40) if rng.random() < 0.9 else code.high - rng.randrange(16)
        self.pokes = []

    def stack_place(self):
        """A stack pointer near an edge of the stack's segment, or a little inside; for a client of 16 bits, one of 16 bits."""
        stack, random = self.segments["ss"], self.rng.random()
        if self.narrow:
            at = stack.low + self.rng.randrange(41) if stack.high > 0xFFFF or random < 0.4 else stack.high - self.rng.randrange(56)
            return at % 2**16
        if random < 0.5:
            at = stack.high - 47 + self.rng.randrange(-8, 9)
        elif random < 0.75:
            at = stack.low + self.rng.randrange(41)
        else:
            at = stack.high + 1 - self.rng.randrange(-2, 13)
        return at % 2**32 if stack.is_big else at % 2**16 | self.rng.choice([0, self.rng.getrandbits(16) << 16])

    def value(self, name):
        wide, first, width = wide_part(name)
        return self.values[wide] >> first & (1 << width) - 1

    def set(self, name, number):
        wide, first, width = wide_part(name)
        self.values[wide] = self.values[wide] & ~((1 << width) - 1 << first) | (number & (1 << width) - 1) << first

    def register(self, width):
        return self.rng.choice(REGISTERS[width])

    def operand(self, width):
        return self.memory(width // 8) if self.rng.random() < 0.5 else self.register(width)

    def offset(self, shape, size):
        """An offset for `size` bytes in a segment: inside near an edge, or across the edge, or beyond."""
        rng = self.rng
        if shape is None:
            return rng.randrange(0x1000)
        edge = rng.choice(["low", "high", "high"])
        if rng.random() < 0.7:
            at = shape.low + rng.randrange(48) if edge == "low" else shape.high + 1 - size - rng.randrange(48)
        else:
            at = shape.low - rng.randrange(size + 3) if edge == "low" else shape.high + 1 - size + rng.randrange(1 - size % 2, size + 3)
        return at % (2**32 if shape.is_big or at < 0x10000 and at >= 0 else 2**16)

    def memory(self, size, moved=0, contents=None):
        """The text of a place of `size` bytes near an edge of its segment. The instruction finds it `moved` bytes after the text's address;
        `contents` is poked there."""
        rng = self.rng
        address = self.bits if rng.random() < 0.6 else 48 - self.bits
        text, number, own = self.form_16() if address == 16 else self.form_32()
        name = own if rng.random() < 0.6 else rng.choice(SEGMENTS)
        at = self.offset(self.segments[name], size)
        if at >= 0x10000 and address == 16:
            address, (text, number, own) = 32, self.form_32()
        self.place = at, size, address
        if contents is not None:
            self.poke(name, at, contents)
        displacement = (at - moved - number) % 2**address
        place = "[%s+0x%x]" % (text, displacement) if text else "[0x%x]" % displacement
        return SIZE[size] + ("" if name == own and text else name + ":") + place

    def form_16(self):
        """The text of an address of 16 bits without its displacement, its number, and its segment register."""
        text = self.rng.choice(FORMS_16[:-1] if self.bits == 32 else FORMS_16)
        return text, sum(self.value(name) for name in text.split("+") if name), "ss" if "bp" in text else "ds"

    def form_32(self):
        rng, parts, number, own = self.rng, [], 0, "ds"
        if rng.random() < 0.85:
            base = rng.choice(WIDE + ["esp"])
            parts, number, own = [base], self.values[base], "ss" if base in ("esp", "ebp") else "ds"
        if rng.random() < 0.5 or not parts and self.bits == 16:
            index, scale = rng.choice(WIDE), rng.choice([1, 2, 4, 8] if parts else [2, 4, 8])
            parts, number = parts + ["%s*%d" % (index, scale)], number + self.values[index] * scale
        return "+".join(parts), number, own

    def poke(self, name, at, contents):
        """Bytes at an offset of a segment, where that lies in the data."""
        place = self.segments[name] and self.segments[name].data_place(at, len(contents))
        if place is not None and len(self.pokes) < POKES:
            self.pokes.append((place, contents))

    def push(self, width, *numbers):
        """Items on the stack, the first one at the stack pointer."""
        top = self.values["esp"] % (2**32 if self.segments["ss"].is_big else 2**16)
        self.poke("ss", top, b"".join((number % 2**width).to_bytes(width // 8, "little") for number in numbers))

    def coded(self, name, opcode, width=0, address=0, segment=None, repeat=None, tail=b""):
        """An instruction by its bytes: prefixes where sizes aren't those of the code, the opcode, and what follows it."""
        front = [0x66] * (width in (16, 32) and width != self.bits) + [0x67] * (address not in (0, self.bits))
        front += [byte for byte in (OVERRIDE.get(segment), repeat) if byte is not None]
        self.rng.shuffle(front)
        return ".byte %s # %s" % (", ".join("0x%02x" % byte for byte in bytes(front + opcode) + tail), name)

    def length(self, text):
        return text.split("#")[0].count(",") + 1

    def selector(self, name):
        shape = self.segments[name]
        return shape.selector if shape else 0

    def packed(self, code):
        """The case as run.h has it."""
        numbers = [self.values[name] for name in ORDER] + [self.eip, self.flags]
        state = b"".join(number.to_bytes(4, "little") for number in numbers)
        state += b"".join(self.selector(name).to_bytes(2, "little") for name in SEGMENTS)
        pokes = self.pokes + [(0, b"")] * (POKES - len(self.pokes))
        for at, contents in pokes:
            code += at.to_bytes(4, "little") + bytes([len(contents)]) + contents.ljust(POKE_ROOM, b"\0")
        return state + code
