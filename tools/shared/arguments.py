"""The arguments of the repository's scripts: those that they take, and how they end on any other."""

import argparse
import os
import shutil
import signal
import sys
from pathlib import Path

from shared.tree import fail


def show_help(doc):
    """Prints a script's docstring and ends it, where that is asked for before anything else."""
    if sys.argv[1:2] in (["-h"], ["--help"]):
        signal.signal(signal.SIGPIPE, signal.SIG_DFL)
        print(doc.strip())
        sys.exit(0)


def is_check(doc, names=()):
    """Whether a script was called with `--check`, and so must change nothing. It may have these names as arguments too, and no others."""
    show_help(doc)
    for word in sys.argv[1:]:
        if word != "--check" and word not in names:
            fail("unknown argument %s" % word, 2)
    return "--check" in sys.argv[1:]


def program(given):
    """The program with that path, which must be there."""
    path = Path(given).resolve()
    if not (path.is_file() and os.access(path, os.X_OK)):
        fail("there is no program %s" % given, 2)
    return path


def at_least_one(given):
    """A number of what is to be checked, for argparse: with none a check would pass."""
    if not given.isdecimal() or int(given) == 0:
        raise argparse.ArgumentTypeError("%s is no number from 1 on" % given)
    return int(given)


def need_rt():
    """Ends a script that can do nothing without the toolchain. No run of `dpmi` ends with this status."""
    if shutil.which("rt") is None:
        fail("there is no command rt on the PATH; docs/QUESTIONS.md says what it is", 127)
