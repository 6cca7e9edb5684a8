"""Builds a suite's source as a flat program of 32 bits on both systems, or as a client of one segment, and runs it."""

import functools
import os
import re
import subprocess
import tempfile
from concurrent.futures import ThreadPoolExecutor
from pathlib import Path

HERE = Path(__file__).resolve().parent
CROSSCHECK, CLIENTS = HERE.parent / "crosscheck.d", HERE.parent.parent / "clients" / "c"
FLAGS = ("-march=i386 -ffreestanding -fno-pic -fno-pie -fno-stack-protector -fno-asynchronous-unwind-tables -fno-tree-loop-distribute-patterns "
         "-ffunction-sections -fdata-sections -fno-common -nostdlib -w").split()
OPTIMIZED = ["-O1"]
FLAT = {"linux": ("flat_linux.ld", [CROSSCHECK / "on_linux.c", HERE / "flat_linux.c"]),
        "dpmi": ("flat_client.ld", [CLIENTS / "start32.s", CROSSCHECK / "on_dpmi.c", CROSSCHECK / "on_dpmi.s", HERE / "flat_dpmi.c",
                                    HERE / "interrupts.s"])}
NARROW = {"16 bits": CLIENTS / "start16.s", "real mode": HERE / "start_real.s"}


class NotBuilt(Exception):
    """A source that doesn't compile, link or end here, with the reason."""


def call(words, folder):
    made = subprocess.run([str(word) for word in words], cwd=folder, capture_output=True, text=True, errors="replace", check=False)
    if made.returncode:
        raise NotBuilt(made.stderr)


def compile_to(made, source, width, options=(), headers=True):
    """An object file of a source in C or assembler."""
    include = ["-nostdinc", "-isystem", gcc_headers(), "-isystem", HERE / "include"] if headers else ["-idirafter", "/usr/include/x86_64-linux-gnu"]
    words = ["as", "--32", "-o", made, source] if source.suffix == ".s" else ["gcc", "-m%d" % width, *FLAGS, *options, *include, "-c", "-o", made, source]
    call(words, made.parent)
    return made


def compile_all(room, sources, width, options):
    """The object files of a suite, whose `main` is `suite_main`."""
    options = [*options, "-Dmain=suite_main"]
    with ThreadPoolExecutor(os.cpu_count()) as pool:
        return list(pool.map(lambda it: compile_to(room / ("suite%d_%s.o" % (width, it.stem)), it, width, options), sources))


@functools.lru_cache(maxsize=None)
def gcc_headers():
    found = subprocess.run(["gcc", "-print-file-name=include"], capture_output=True, text=True, check=True)
    return found.stdout.strip()


class Kit:
    """The object files of the run-time, made once: of each system of a flat program, and of each kind of client of one segment."""

    def __init__(self, folder):
        self.folder, self.flat, self.narrow = folder, {}, {}
        library = compile_to(folder / "library32.o", HERE / "library.c", 32, ["-Os", "-DHEAP=0x40000"])
        flat = compile_to(folder / "flat.o", HERE / "flat.c", 32, ["-Os"])
        for system, (script, sources) in FLAT.items():
            own = [compile_to(folder / ("%s_%s.o" % (system, it.stem + it.suffix[1:])), it, 32, ["-Os"], it.parent == HERE) for it in sources]
            self.flat[system] = script, [library, flat, *own]
        library = compile_to(folder / "library16.o", HERE / "library.c", 16, ["-Os"])
        console = compile_to(folder / "console.o", HERE / "console.c", 16, ["-Os"])
        for kind, start in NARROW.items():
            self.narrow[kind] = [compile_to(folder / (start.stem + ".o"), start, 16), library, console]

    def link(self, objects, script, made):
        """A program in ELF, and where it is a client, the client beside it."""
        call(["ld", "-m", "elf_i386", "--gc-sections", "-L", HERE, "-T", HERE / script, "-o", made, *objects], made.parent)
        if made.suffix == ".elf":
            call(["objcopy", "-O", "binary", made, made.with_suffix(".exe")], made.parent)
        return made

    def link_flat(self, room, objects):
        """The program of Linux and the client, of the same object files."""
        return {system: self.link([*objects, *own], script, room / (system + ".elf")) for system, (script, own) in self.flat.items()}

    def build_flat(self, room, sources, options=OPTIMIZED):
        return self.link_flat(room, compile_all(room, sources, 32, options))

    def build_narrow(self, room, sources, options=OPTIMIZED):
        """The clients of one segment, by their kind."""
        objects = compile_all(room, sources, 16, options)
        return {kind: self.link([*objects, *own], "narrow.ld", room / (kind.replace(" ", "_") + ".elf")) for kind, own in self.narrow.items()}


def run_native(program, seconds=20):
    """What a program of Linux writes, and its status."""
    try:
        run = subprocess.run([program], capture_output=True, stdin=subprocess.DEVNULL, timeout=seconds, check=False)
    except subprocess.TimeoutExpired:
        raise NotBuilt("it doesn't end")
    return run.stdout, "exited %d" % run.returncode if run.returncode >= 0 else "signal %d" % -run.returncode


def run_client(dpmi, program, *words):
    """What a client writes, and its exit."""
    out = subprocess.run([dpmi, "run", program.with_suffix(".exe"), "--bound", "1000000000", "--trace", "0", *words], capture_output=True, check=False).stdout
    head, _, rest = out.partition(b"\n")
    if not head.startswith(b"console "):
        return b"", head.decode("latin-1")
    size = int(head.split()[1])
    return rest[:size], re.search(rb"\nexit (.*)\n", rest[size:])[1].decode("latin-1")


def symbols(program):
    """The address of each symbol of a program."""
    listed = subprocess.run(["nm", program], capture_output=True, text=True, check=True).stdout
    return {name: int(address, 16) for address, name in re.findall(r"^(\w+) \w (\w+)$", listed, re.M)}


def room():
    return tempfile.TemporaryDirectory(prefix="peers-")
