"""The instructions that both kinds of cases share.

Each family is a function of a case, which chooses operands: `case.operand(width)` is a register or a place in memory, and
`case.register(width)` a register. `case.set(register, number)` makes a register hold a number before the instruction. A family returns the
text of one instruction in GNU's Intel syntax and the flags that the instruction leaves undefined.
"""

CF, PF, AF, ZF, SF, DF, OF = 0x001, 0x004, 0x010, 0x040, 0x080, 0x400, 0x800
ARITHMETIC = CF | PF | AF | ZF | SF | OF

WIDE = ["eax", "ebx", "ecx", "edx", "esi", "edi", "ebp"]
WORDS = ["ax", "bx", "cx", "dx", "si", "di", "bp"]
BYTES = ["al", "ah", "bl", "bh", "cl", "ch", "dl", "dh"]
REGISTERS = {32: WIDE, 16: WORDS, 8: BYTES}
CONDITIONS = "o no b ae e ne be a s ns p np l ge le g".split()

# Which flags an instruction leaves undefined: 80386 Programmer's Reference Manual, ch. 17, page by page.
LOGIC = AF
PRODUCT = SF | ZF | AF | PF
UNDEFINED = {
    "and": LOGIC, "or": LOGIC, "xor": LOGIC, "test": LOGIC, "mul": PRODUCT, "imul": PRODUCT, "div": ARITHMETIC, "idiv": ARITHMETIC,
    "bsf": ARITHMETIC & ~ZF, "bsr": ARITHMETIC & ~ZF, "bt": ARITHMETIC & ~CF, "bts": ARITHMETIC & ~CF, "btr": ARITHMETIC & ~CF,
    "btc": ARITHMETIC & ~CF, "daa": OF, "das": OF, "aaa": OF | SF | ZF | PF, "aas": OF | SF | ZF | PF, "aam": OF | AF | CF,
    "aad": OF | AF | CF,
}


def undefined_of_shift(name, count):
    """A count of 0 changes no flag; OF is defined for a count of 1 alone, and AF never but for rotations, which keep it."""
    if count == 0:
        return 0
    return (0 if count == 1 else OF) | (0 if name in ("rol", "ror", "rcl", "rcr") else AF)


def two(case, width):
    """A first and a second operand, not both in memory; or an immediate."""
    if case.rng.random() < 0.25:
        return case.operand(width), str(case.rng.getrandbits(width))
    if case.rng.random() < 0.5:
        return case.operand(width), case.register(width)
    return case.register(width), case.operand(width)


def any_width(case):
    return case.rng.choice([32, 32, 16, 16, 8])


def word_or_double(case):
    return case.rng.choice([32, 16])


def arithmetic(case):
    name = case.rng.choice("add adc sub sbb and or xor cmp test".split())
    return "%s %s, %s" % (name, *two(case, any_width(case))), UNDEFINED.get(name, 0)


def single(case):
    return "%s %s" % (case.rng.choice("inc dec neg not".split()), case.operand(any_width(case))), 0


def shift(case):
    width = any_width(case)
    name = case.rng.choice("shl shr sar rol ror rcl rcr".split())
    count = case.rng.choice([0, 1, 1, case.rng.randrange(32)])
    if name in ("rcl", "rcr") or width != 32 and name in ("shl", "shr"):
        count %= width
    if case.rng.random() < 0.5:
        return "%s %s, %d" % (name, case.operand(width), count), undefined_of_shift(name, count)
    case.set("cl", count)
    return "%s %s, cl" % (name, case.operand(width)), undefined_of_shift(name, count)


def double_shift(case):
    width = word_or_double(case)
    count = case.rng.randrange(width)
    name = case.rng.choice(["shld", "shrd"])
    return "%s %s, %s, %d" % (name, case.operand(width), case.register(width), count), OF | AF if count else 0


def product(case):
    name = case.rng.choice(["mul", "imul"])
    if name == "mul" or case.rng.random() < 0.4:
        return "%s %s" % (name, case.operand(any_width(case))), PRODUCT
    width = word_or_double(case)
    if case.rng.random() < 0.5:
        return "imul %s, %s" % (case.register(width), case.operand(width)), PRODUCT
    number = case.rng.getrandbits(width - 1) - (1 << width - 2)
    return "imul %s, %s, %d" % (case.register(width), case.operand(width), number), PRODUCT


def extension(case):
    name, small = case.rng.choice(["movzx", "movsx"]), case.rng.choice([8, 16])
    width = 32 if small == 16 else word_or_double(case)
    return "%s %s, %s" % (name, case.register(width), case.operand(small)), 0


def scan(case):
    width = word_or_double(case)
    name = case.rng.choice(["bsf", "bsr"])
    source = case.rng.choice(REGISTERS[width])
    case.set(source, 1 << case.rng.randrange(width))
    return "%s %s, %s" % (name, case.register(width), source), UNDEFINED[name]


def bit(case):
    width = word_or_double(case)
    name = case.rng.choice(["bt", "bts", "btr", "btc"])
    return "%s %s, %d" % (name, case.operand(width), case.rng.randrange(width)), UNDEFINED[name]


def decimal(case):
    name = case.rng.choice("daa das aaa aas aam aad".split())
    return name, UNDEFINED[name]


def conversion(case):
    return case.rng.choice(["cbw", "cwde", "cwd", "cdq", "lahf", "sahf", "cmc", "clc", "stc"]), 0


def set_byte(case):
    return "set%s %s" % (case.rng.choice(CONDITIONS), case.operand(8)), 0


SHARED = [arithmetic] * 3 + [single, shift, shift, double_shift, product, extension, scan, bit, decimal, conversion, set_byte]
