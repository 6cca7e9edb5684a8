"""gcc's torture tests of its own code (gcc.c-torture/execute): small programs that end with 0, or abort where they were compiled or run wrongly."""

import os
import re
import tempfile
from concurrent.futures import ThreadPoolExecutor
from pathlib import Path

import build
from report import Suite

PACKAGE, PARTS = "gcc-12", ["gcc/testsuite/gcc.c-torture/execute/"]
OPTIONS = ["-O1", "-mno-80387", "-std=gnu89", "-fgnu89-inline"]
KINDS = ["flat, 32 bits", "16 bits", "real mode"]
REASONS = [("gcc -m16 writes the code that calls a nested function as code of 32 bits", r"nestfunc-[35]:", lambda _: "")]


def options_of(source):
    """What a test asks of the compiler in its first lines."""
    asked = re.findall(r'dg-(?:additional-)?options "([^"]*)"', source.read_text(errors="replace"))
    return [*OPTIONS, *(word for line in asked for word in line.split() if not word.startswith(("-O", "-m")))]


def outcome(dpmi, kit, room, source):
    """Of each kind what the client and the program of Linux do; nothing of a kind for which the test can't be built."""
    found = {}
    with tempfile.TemporaryDirectory(dir=room) as folder:
        folder, options = Path(folder), options_of(source)
        try:
            programs = kit.build_flat(folder, [source], options)
            theirs = build.run_native(programs["linux"])
            found[KINDS[0]] = build.run_client(dpmi, programs["dpmi"]), theirs
            for kind, program in kit.build_narrow(folder, [source], options).items():
                found[kind] = build.run_client(dpmi, program), theirs
        except build.NotBuilt:
            pass
    return source.stem, found


def run(folder, version, dpmi, kit, room):
    sources = sorted((folder / "gcc/testsuite/gcc.c-torture/execute").glob("*.c"))
    with ThreadPoolExecutor(os.cpu_count()) as pool:
        outcomes = list(pool.map(lambda source: outcome(dpmi, kit, room, source), sources))
    for kind in KINDS:
        suite = Suite("gcc torture tests", version, kind, REASONS if kind != KINDS[0] else [])
        for name, found in outcomes:
            ours, theirs = found.get(kind, (None, None))
            if ours is None:
                suite.left_out["want floating point, a library, or more memory"] += 1
            elif theirs[1] != "exited 0":
                suite.left_out["don't end with 0 on the processor, with the run-time that they have here"] += 1
            elif kind != KINDS[0] and ours[1].startswith("fault 0c"):
                suite.left_out["want more stack than a segment has"] += 1
            elif ours[1] == "bound":
                suite.left_out["take more than 1,000,000,000 steps"] += 1
            else:
                suite.count(ours == theirs, "%s: %s" % (name, ours[1]), "%s: %s" % (name, theirs[1]))
        yield suite
