"""QEMU's tests of i386 instructions: test-i386.c prints what each of some thousand instructions leaves."""

import re

import build
from report import Suite

PACKAGE, PARTS = "qemu", ["tests/tcg/i386/"]
AHEAD = 12
# Our `main` calls the tests in the order of theirs, but for those of floating point.
MAIN = """
int suite_main(void)
{
    for (void **test = &__start_initcall; test != &__stop_initcall; test++)
        ((void (*)(void))*test)();
    test_bsx(), test_mul(), test_jcc(), test_loop(), test_bcd(), test_xchg(), test_string(), test_misc(), test_lea();
#ifdef TEST_SEGS
    test_segs(), test_code16(), test_exceptions(), test_self_modifying_code();
#endif
    test_conv();
    return 0;
}
"""


def without_flags(flags):
    """Forgives these flags of a result."""
    return lambda line: re.sub(r"\bCC=([0-9a-f]{4})", lambda found: "CC=%04x" % (int(found[1], 16) & ~flags), line)


def without_ah(line):
    return re.sub(r" R=(....)..", r" R=\1", line)


def anything(_line):
    return ""


# The name of a reason, the lines that have it, and what it forgives.
REASONS = [
    ("SHLD and SHRD by the width or more, which is undefined, change nothing", r"sh[lr]dw .* C=0000001", anything),
    ("OF of SHLD and SHRD, which is undefined, is kept", r"sh[lr]d[wl] ", without_flags(0x800)),
    ("AF of AAM and AAD, which is undefined, is kept", r"aa[md] ", without_flags(0x10)),
    ("AAA and AAS change AL and AH each by itself", r"aa[as] ", without_ah),
    ("an instruction of the 80486", r"(xadd|cmpxchg|bswap)", anything),
    ("signals have numbers of Linux's", r".* exceptions?: si_signo=", anything),
    ("Linux refuses INT, CLI, STI, IN and OUT, which the host serves", r"(INT|CLI|STI|OUTB|INB) exception: trapno=", anything),
    ("there is no single stepping", r"single step exception: ", anything),
]

# What test_xchg has of the 80486.
NEWER = re.compile(r"^ *TEST_XCHG\(xadd[^\n]*\n|^ *TEST_CMPXCHG\([^\n]*\n|^    \{\n[^}]*?uint64_t op0.*?^    \}\n", re.M | re.S)


def text_of(folder, flat):
    """The source with our `main`; for clients of one segment without segments, exceptions and the 80486."""
    text = (folder / "tests/tcg/i386/test-i386.c").read_text()
    text = text.replace("#define TEST_CMOV  1", "#define TEST_CMOV 0").replace("QEMU_PACKED", "__attribute__((packed))")
    text = text.replace("void test_jcc(void)", "__attribute__((optimize(0))) void test_jcc(void)")  # it wants registers with a low byte
    text = text.replace("(char *)0x1234", "(char *)0x200000")  # an address where neither system has a page
    text = text[:text.index("int main(int argc")]
    text = text[:text.index("void test_fops(")] + text[text.index("void test_floats("):].partition("\n}\n")[2]
    if not flat:
        text = NEWER.sub("", text.replace("#define TEST_SEGS\n", "").replace('"bswapl %k0"', '"nop"').replace('"xaddl %1, %0"', '"nop"'))
    return text + MAIN


def narrow_text_of(text):
    """The same for 16 bits: an LEA of 16 bits has no prefix there, and IRET one."""
    text = text.replace('.code16 ; .byte 0x67 ; leal " STR ", %0 ; .code32', '.code16 ; leaw " STR ", %w0 ; .code16gcc')
    return text.replace('"iret\\n"', '"iretl\\n"')


def lines_of(text):
    """The lines of a text; those that come of an exception with the line that announces it."""
    announced = ""
    for line in text.decode("latin-1").splitlines():
        announced = line + " " if re.search(r"exceptions?:$", line) else announced if re.match("si_|trapno|val=", line) else ""
        yield line if announced == line + " " else announced + line


def same(ours, theirs, distances):
    """Whether two lines are the same, but for addresses in the program."""
    if ours == theirs:
        return True
    a, b = re.split(r"([0-9a-f]{8})", ours), re.split(r"([0-9a-f]{8})", theirs)
    return len(a) == len(b) and all(
        x == y or (n % 2 and (int(y, 16) - int(x, 16)) % 2**32 in distances) for n, (x, y) in enumerate(zip(a, b)))


def what_is_tested(line):
    """The instruction of a line and its operands, without what came of it."""
    line = re.sub(r" (R|CC|Z|z|EAX|ESI|EDI|ECX|EFL|trapno|err|EIP|val|C|B)=.*" if not line.startswith("sh") else r" (R|CC)=.*", "", line)
    return re.sub(r"=.*", "", line) if "A=" not in line else line


def paired(ours, theirs):
    """The lines of both sides in pairs that test the same; a line that the other side doesn't have soon is alone."""
    while ours or theirs:
        mine, other = what_is_tested(ours[0]) if ours else None, what_is_tested(theirs[0]) if theirs else None
        if mine != other and (mine is None or mine in map(what_is_tested, theirs[:AHEAD])):
            yield "", theirs.pop(0)
        elif mine != other and (other is None or other in map(what_is_tested, ours[:AHEAD])):
            yield ours.pop(0), ""
        else:
            yield ours.pop(0), theirs.pop(0)


def compare(suite, ours, theirs, distances):
    for mine, other in paired(list(lines_of(ours)), list(lines_of(theirs))):
        suite.count(same(mine, other, distances), mine, other)


def distances_between(programs):
    """How far the parts of the two programs lie from each other."""
    ours, theirs = (build.symbols(program) for program in programs)
    return {(theirs[name] - address) % 2**32 for name, address in ours.items() if name in theirs}


def run(folder, version, dpmi, kit, room):
    options = ["-Os", "-I", str(folder / "tests/tcg/i386")]
    for is_flat in (True, False):
        flat, narrow = room / "flat.c", room / "narrow.c"
        flat.write_text(text_of(folder, is_flat))
        narrow.write_text(narrow_text_of(flat.read_text()))
        programs = kit.build_flat(room, [flat, folder / "tests/tcg/i386/test-i386-code16.S"], options)
        native, _ = build.run_native(programs["linux"])
        clients = {"flat, 32 bits": programs["dpmi"]} if is_flat else kit.build_narrow(room, [narrow], options)
        for kind, client in clients.items():
            ours, exit = build.run_client(dpmi, client)
            suite = Suite("QEMU test-i386", version, kind, REASONS, exit)
            compare(suite, ours, native, distances_between([client, programs["linux"]]))
            yield suite
