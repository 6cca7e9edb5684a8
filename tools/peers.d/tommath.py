"""The tests of libtommath, a library of whole numbers of any size: each test computes and says what it did. Those about primes, files, the
system's random numbers and floating point are left out."""

import os
import re
from concurrent.futures import ThreadPoolExecutor

import build
from report import Suite

PACKAGE, PARTS = "libtommath", [""]
OPTIONS = ["-O1", "-mno-80387", "-DMP_NO_FILE", "-DMP_NO_DEV_URANDOM", "-include", "stdio.h"]
TEST = re.compile(r"^ *T\d\((\w+).*\n", re.M)
LEFT_OUT = re.compile("prime|fread|rand|double")


def run(folder, version, dpmi, kit, room):
    text = (folder / "demo/test.c").read_text()
    source = room / "test.c"
    source.write_text(TEST.sub(lambda test: "" if LEFT_OUT.search(test[0]) else test[0], text))
    sources = [source, folder / "demo/shared.c", *sorted(folder.glob("bn_*.c"))]
    objects = build.compile_all(room, sources, 32, [*OPTIONS, "-I", str(folder), "-I", str(folder / "demo")])

    def outcome(name):
        """What the client and the program of Linux do that make one test."""
        own = room / name
        own.mkdir()
        words = own / "words.c"
        words.write_text('char *suite_words[] = {"suite", "%s", 0};\n' % name)
        programs = kit.link_flat(own, [*objects, build.compile_to(own / "suite_words.o", words, 32)])
        return build.run_client(dpmi, programs["dpmi"]), build.run_native(programs["linux"])

    suite = Suite("libtommath", version, "flat, 32 bits", [])
    names = [name for name in TEST.findall(source.read_text()) if name != "n"]
    with ThreadPoolExecutor(os.cpu_count()) as pool:
        for name, (ours, theirs) in zip(names, pool.map(outcome, names)):
            if ours[1] == "bound":
                suite.left_out["take more than 1,000,000,000 steps"] += 1
            else:
                suite.count(ours == theirs, name + ": " + ours[1], name + ": " + theirs[1])
    yield suite
