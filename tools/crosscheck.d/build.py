"""Makes programs of Linux and clients of DPMI with binutils and gcc, and runs clients."""

import subprocess
import sys
from pathlib import Path

HERE = Path(__file__).resolve().parent
START = HERE.parent.parent / "clients" / "c"
C_FLAGS = ("-m32 -march=i386 -Os -ffreestanding -fno-pic -fno-pie -fno-stack-protector -fno-asynchronous-unwind-tables -mno-80387 "
           "-nostdlib -fno-tree-loop-distribute-patterns -Wall -Werror "
           # where Debian has the kernel's headers, which serve programs of 32 bits too
           "-idirafter /usr/include/x86_64-linux-gnu").split()

ENTER_WIDE, ENTER_NARROW = "mov     ax, 1 ", "xor     ax, ax"


def run(*words):
    subprocess.run([str(word) for word in words], check=True)


def assemble(room, name, text, *options):
    (room / (name + ".s")).write_text(".intel_syntax noprefix\n" + text)
    run("as", "-W", "--32", *options, "-I", room, "-o", room / (name + ".o"), room / (name + ".s"))


def compile_c(room, name):
    run("gcc", *C_FLAGS, "-c", "-o", room / (name + ".o"), HERE / (name + ".c"))


def link_native(room, *names):
    """A program of Linux, from object files."""
    run("ld", "-m", "elf_i386", "-o", room / "native", *[room / (name + ".o") for name in names])
    return room / "native"


def client(room, *names, narrow=False):
    """A client of 32 bits, or with `narrow` of 16, that calls `main` in flat code of 32 bits, from object files."""
    text = (START / "start32.s").read_text()
    if text.count(ENTER_WIDE) != 1:
        sys.exit("clients/c/start32.s doesn't enter as it did")
    (room / "start.s").write_text(text.replace(ENTER_WIDE, ENTER_NARROW) if narrow else text)
    run("as", "--32", "-o", room / "start.o", room / "start.s")
    objects = [room / (name + ".o") for name in ("start", *names)]
    run("ld", "-m", "elf_i386", "-T", START / "client32.ld", "-o", room / "client.exe", *objects)
    return room / "client.exe"


def console_of(dpmi, program):
    """What a client writes; it must end by itself with 0."""
    out = subprocess.run([dpmi, "run", program, "--bound", "1000000000", "--trace", "0"], capture_output=True).stdout
    head, rest = out.split(b"\n", 1)
    size = int(head.split()[1])
    if b"\nexit exited 0\n" not in rest[size:]:
        sys.exit("the client did not end by itself:\n" + rest[size:].decode()[:400])
    return rest[:size]
