"""Sessions of gdb as a page or a file shows them: a line `gdb WORDS`, what gdb writes first, and for each line `(gdb) COMMAND` what it
writes then. Two dots at the end of a line are the rest of that line, and a line of two dots any lines."""

import os
import re
import shlex
import shutil
import subprocess
from pathlib import Path

TOP = Path(__file__).resolve().parent.parent.parent
PROMPT = "(gdb) "
MAJOR = 13  # of the gdb whose words are shown
LIMIT = 300
UNPROVED = r"dpmi: this library is not proved .*\n"
SETTINGS = ["-nx", "-q", "-iex", "set width 80", "-iex", "set height 0", "-iex", "set confirm off", "-iex", "set style enabled off"]


def why_not(words):
    """Why a session can't be played here, or nothing."""
    if not shutil.which("gdb"):
        return "there is no gdb"
    version = subprocess.run(["gdb", "--version"], capture_output=True, text=True, check=False).stdout.splitlines()[0]
    if not re.search(r" %d\.\d+" % MAJOR, version):
        return "they are of gdb %d, and here is %s" % (MAJOR, version)
    if not Path(os.environ.get("DPMI_LIBRARY") or TOP / "library" / "out" / "libdpmi.so").exists():
        return "there is no library (library/quick makes one, library/build a proved one)"
    missing = [word for word in words if word.endswith(".elf") and not (TOP / word).exists()]
    return "there is no %s (clients/c/build makes it)" % missing[0] if missing else None


def parts_of(lines):
    """The commands of a session, and the lines that are shown before the first and after each."""
    commands, shown = [], [[]]
    for line in lines:
        if line.startswith(PROMPT):
            commands.append(line.removeprefix(PROMPT))
            shown.append([])
        else:
            shown[-1].append(line)
    return commands, shown


def play(line, commands):
    """What gdb writes before the first command and after each."""
    environment = {**os.environ, "LC_ALL": "C", "TERM": "dumb", "DEBUGINFOD_URLS": ""}
    run = subprocess.run(["gdb", *SETTINGS, *shlex.split(line)[1:]], cwd=TOP, input="".join(it + "\n" for it in commands), text=True,
                         stdout=subprocess.PIPE, stderr=subprocess.STDOUT, timeout=LIMIT, env=environment, check=False)
    return re.sub(UNPROVED, "", run.stdout).split(PROMPT)[:len(commands) + 1]


def pattern(lines):
    """What a text must match."""
    parts = []
    for line in "\n".join(lines).rstrip("\n").split("\n"):
        cut = line.removesuffix("..")
        parts.append("(?:.*\n)*?" if line == ".." else re.escape(cut) + (".*\n" if line != cut else "\n"))
    return re.compile("".join(parts) if any(lines) else "")


def differences(line, lines):
    """What is other than shown, in lines."""
    commands, shown = parts_of(lines)
    written = play(line, commands)
    for number, wanted in enumerate(shown):
        got = written[number].rstrip("\n") if number < len(written) else "gdb ended before"
        if not pattern(wanted).fullmatch(got + "\n" * bool(got)):
            yield "after %s:" % (PROMPT + commands[number - 1] if number else line)
            yield from ("  " + it for it in got.split("\n"))
