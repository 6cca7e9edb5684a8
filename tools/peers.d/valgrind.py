"""Valgrind's tests of single instructions: insn_basic.def has for each its operands and what must come out."""

import re
import subprocess

import build
from report import Suite

PACKAGE, PARTS = "valgrind", ["none/tests/x86/"]
REASONS = [
    ("an instruction of the 80486", r"(bswap|cmpxchg|xadd)", lambda _: ""),
    ("AAA and AAS change AL and AH each by itself", r"aa[as]_", lambda _: ""),
]


def text_of(folder):
    """The program that Valgrind's script makes of the table, with the decimal instructions and without what saves the coprocessor's state."""
    tests = folder / "none/tests/x86"
    table = re.sub(r"^###(?=[a-z]+ )", "", (tests / "insn_basic.def").read_text(), flags=re.M)
    made = subprocess.run(["perl", tests / "gen_insn_test.pl"], input=table, capture_output=True, text=True, check=True).stdout
    return re.sub(r'^ *"(fsave|frstor) .*\n', "", made, flags=re.M)


def answers(text):
    """What is said of each test."""
    found = re.findall(r"^(\w+) \.\.\. (.*\n(?: .*\n)*)", text.decode("latin-1"), re.M)
    return {name: name + " " + " ".join(said.split()) for name, said in found}


def run(folder, version, dpmi, kit, room):
    source = room / "insn_basic.c"
    source.write_text(text_of(folder))
    programs = kit.build_flat(room, [source], ["-O1"])
    theirs, _ = build.run_native(programs["linux"])
    ours, exit = build.run_client(dpmi, programs["dpmi"])
    suite = Suite("Valgrind insn_basic", version, "flat, 32 bits", REASONS, exit)
    ours, theirs = answers(ours), answers(theirs)
    for name in sorted({*ours, *theirs}):
        suite.count(ours.get(name) == theirs.get(name), ours.get(name, ""), theirs.get(name, ""))
    yield suite
