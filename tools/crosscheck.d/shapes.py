"""Segments of each shape: up and down, of bytes and of pages, with and without the B or D bit, read-only, not present."""

# The index of the first descriptor that function 0000h gives to a client of clients/c/start32.s: the entry has made 64 to 68, it 69 and 70.
FIRST_INDEX = 71
DATA_SIZE, EDGE = 0x12000, 96  # EDGE: how many bytes on each side of a limit are compared
PRESENT, IS_CODE, DOWN, WRITABLE = 0x80, 8, 4, 2
IN_PAGES, BIG = 0x80, 0x40


class Shape:
    """A descriptor: base (in the data, or in the code), limit as its field holds it, access byte and flags byte."""

    def __init__(self, name, base, limit, access, flags=0, last=None, before_read_only=False):
        """With `last` the offsets that cases use lie about that one, where a page ends, and not about the limit."""
        self.name, self.base, self.limit, self.access, self.flags = name, base, limit, access | 0x71, flags
        self.before_read_only = before_read_only
        self.selector = None
        in_bytes = limit * 4096 + 4095 if flags & IN_PAGES else limit
        self.is_code = bool(access & IS_CODE)
        self.is_big = bool(flags & BIG)
        self.is_down = not self.is_code and bool(access & DOWN)
        self.is_present = bool(access & PRESENT)
        self.is_stack = self.is_present and not self.is_code and bool(access & WRITABLE)
        self.low = in_bytes + 1 if self.is_down else 0
        self.high = (0xFFFFFFFF if self.is_big else 0xFFFF) if self.is_down else in_bytes
        if last is not None:
            self.high = last

    def packed(self):
        return self.base.to_bytes(4, "little") + self.limit.to_bytes(4, "little") + bytes([self.access, self.flags, self.place(), 0])

    def place(self):
        """What the base counts from, as run.h has it."""
        return 1 if self.is_code else 2 if self.before_read_only else 0

    def data_place(self, offset, count):
        """Where in the data `count` bytes at an offset lie, or None where they aren't all in a window of this segment."""
        at = (self.base + offset) % 2**32
        return None if self.place() or not any(start <= at and at + count <= end for start, end in self.windows()) else at

    def windows(self):
        """The doublewords about the edges."""
        for edge in (self.low, self.high + 1):
            at = max((self.base + edge) % 2**32 - EDGE, 0) & ~3
            yield at, min(at + 2 * EDGE, DATA_SIZE)


def limit(rng):
    return rng.choice([rng.randrange(0x300, 0x1000), rng.randrange(0x300, 0x1000), rng.randrange(0x20)])


def shapes(rng):
    """The descriptors of a program, with their selectors. The last three reach past the end of a page, into the next one."""
    def base():
        return rng.randrange(0x100, 0x1000)

    last = [rng.randrange(0x100, 0x1000), rng.randrange(0x100, 0x1000), rng.randrange(0x100, 0x700)]
    code, data = PRESENT | IS_CODE | WRITABLE, PRESENT | WRITABLE
    made = [
        Shape("code of 16 bits", rng.randrange(0x100), 0xFFFF, code),
        Shape("code of 16 bits", rng.randrange(0x100), rng.randrange(0x300, 0x1000), code),
        Shape("code of 32 bits", rng.randrange(0x100), 0xFFFF, code, BIG),
        Shape("code of 32 bits", rng.randrange(0x100), rng.randrange(0x300, 0x1000), code, BIG),
        Shape("code, not present", 0, 0xFFFF, code & ~PRESENT),
        Shape("up", base(), limit(rng), data),
        Shape("up", base(), 0xFFFF, data),
        Shape("up, B", base(), limit(rng), data, BIG),
        Shape("up, pages", base(), rng.randrange(14), data, IN_PAGES | BIG),
        Shape("up, read-only", base(), limit(rng), PRESENT),
        Shape("down", base(), limit(rng), data | DOWN),
        Shape("down", base(), 0xFFFF - rng.randrange(0x40, 0x1000), data | DOWN),
        Shape("down, B", base(), limit(rng), data | DOWN, BIG),
        Shape("down, pages", base(), rng.randrange(14), data | DOWN, IN_PAGES | BIG),
        Shape("down, read-only", base(), limit(rng), PRESENT | DOWN),
        Shape("data, not present", base(), 0xFFFF, data & ~PRESENT),
        Shape("up to an absent page", DATA_SIZE - last[0], last[0] + 0xFFF, data, last=last[0] - 1),
        Shape("up to an absent page, B", DATA_SIZE - last[1], last[1] + 0xFFF, data, BIG, last=last[1] - 1),
        Shape("up to a page that can't be written", 0x800 - last[2], last[2] + 0xFFF, data, BIG, last=last[2] - 1, before_read_only=True),
    ]
    for index, shape in enumerate(made, FIRST_INDEX):
        shape.selector = index * 8 + 7
    return made


def windows(made):
    """All windows of the data, joined where they overlap."""
    joined = []
    for at, end in sorted(window for shape in made if not shape.place() for window in shape.windows()):
        if joined and at <= joined[-1][1]:
            joined[-1][1] = max(joined[-1][1], end)
        else:
            joined.append([at, end])
    return joined
