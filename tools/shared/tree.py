"""The files of the repository, as its scripts read them."""

import importlib.machinery
import importlib.util
import os
import re
import sys
from pathlib import Path

TOP = Path(__file__).resolve().parent.parent.parent


def fail(text, status=1):
    """Ends a script with one line that says why."""
    print("%s: %s" % (os.path.relpath(os.path.realpath(sys.argv[0]), TOP), text), file=sys.stderr)
    sys.exit(status)


def read(path):
    """The text of a file, which must be there."""
    try:
        return path.read_text(encoding="utf-8")
    except (OSError, UnicodeDecodeError) as error:
        return fail("%s can't be read: %s" % (path.relative_to(TOP), getattr(error, "strerror", error)))


def files(*patterns):
    """The files that the patterns fit. A script that finds none has nothing to check, and must not pass."""
    return [path for pattern in patterns for path in sorted(TOP.glob(pattern))] or fail("there is no %s" % " or ".join(patterns))


def crate_uses():
    """Each crate of crates.txt, with those that it uses, in the order of that file."""
    rows = (line.partition("#")[0].partition(":") for line in read(TOP / "crates.txt").splitlines())
    return {crate.split()[0]: used.split() for crate, colon, used in rows if colon} or fail("crates.txt names no crate")


def rows(page, head):
    """The rows of the tables of a page whose first line begins so, as lists of cells."""
    for table in re.findall(r"(?:^\|.*\n)+", read(page), re.M):
        if table.startswith(head):
            yield from ([cell.strip() for cell in line.strip("|").split("|")] for line in table.splitlines()[2:])


def script(path):
    """A script without an ending, as a module."""
    loader = importlib.machinery.SourceFileLoader(path.name, str(path))
    module = importlib.util.module_from_spec(importlib.util.spec_from_loader(path.name, loader))
    sys.modules[path.name] = module
    loader.exec_module(module)
    return module
