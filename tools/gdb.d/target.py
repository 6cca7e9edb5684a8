"""The registers as gdb is told of them: those of an 80386, and a few more."""

CORE = "eax ecx edx ebx esp ebp esi edi eip eflags cs ss ds es fs gs".split()
CONTROL = "fctrl fstat ftag fiseg fioff foseg fooff fop".split()
BASES = "es_base cs_base ss_base ds_base fs_base gs_base".split()
EXTRA = ["ip", "top", *BASES, "turn", "depth"]
FLAGS = [("CF", 0), ("", 1), ("PF", 2), ("AF", 4), ("ZF", 6), ("SF", 7), ("TF", 8), ("IF", 9), ("DF", 10), ("OF", 11), ("NT", 14)]
TYPES = {"esp": "data_ptr", "ebp": "data_ptr", "eip": "code_ptr", "eflags": "i386_eflags", "top": "data_ptr"}
STACKS = 8  # registers of a coprocessor, which gdb asks for, and which aren't there


def description():
    """The XML that names the registers in order. It names no architecture: gdb keeps the one that the user or an ELF file sets."""
    lines = ['<?xml version="1.0"?>', '<!DOCTYPE target SYSTEM "gdb-target.dtd">', "<target>", "<osabi>none</osabi>"]
    lines += ['<feature name="org.gnu.gdb.i386.core">', '<flags id="i386_eflags" size="4">']
    lines += ['<field name="%s" start="%d" end="%d"/>' % (name, bit, bit) for name, bit in FLAGS] + ["</flags>"]
    lines += ['<reg name="%s" bitsize="32" type="%s"/>' % (name, TYPES.get(name, "int32")) for name in CORE]
    lines += ['<reg name="st%d" bitsize="80" type="i387_ext"/>' % number for number in range(STACKS)]
    lines += ['<reg name="%s" bitsize="32" type="int" group="float"/>' % name for name in CONTROL]
    lines += ["</feature>", '<feature name="dpmi">']
    lines += ['<reg name="%s" bitsize="32" type="%s"/>' % (name, TYPES.get(name, "uint32")) for name in EXTRA]
    return "\n".join(lines + ["</feature>", "</target>"])


def registers(row, turn, base):
    """The registers of a state in that order, each in hexadecimal digits. Addresses are counted from `base`."""
    values = {name: getattr(row, name) for name in CORE if name not in ("eip", "eflags")}
    values.update({name: getattr(row, name) - base for name in BASES})
    values.update(eip=row.instruction - base, eflags=row.flags, ip=row.eip, top=row.stack_top - base, turn=turn, depth=row.depth)
    texts = {name: (value & 0xFFFFFFFF).to_bytes(4, "little").hex() for name, value in values.items()}
    return [texts[name] for name in CORE] + ["x" * 20] * STACKS + ["x" * 8] * len(CONTROL) + [texts[name] for name in EXTRA]
