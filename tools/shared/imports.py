"""What a file brings in by `use` and `ghost use`: groups of names, and groups in groups.

    use Rattle.client_world.specs.{Access.{access}, World.{World, depth}}
"""

import re

GROUP = re.compile(r"^((?:ghost |unfoldable |pub )*use )([\w.]+)\.\{", re.M)
INNER = re.compile(r"([^\s{}]+)\.\{(.*)\}", re.S)


def members(text):
    """What stands between the commas of a group that are in no inner group."""
    found, depth, start = [], 0, 0
    for at, letter in enumerate(text + ","):
        depth += (letter == "{") - (letter == "}")
        if letter == "," and depth == 0:
            found.append(text[start:at].strip())
            start = at + 1
    return [member for member in found if member]


def groups(text):
    """Each group: where it begins and ends in the text, what stands before its path, its path, and its members as they are written."""
    for match in GROUP.finditer(text):
        depth, end = 1, match.end()
        while depth and end < len(text):
            depth += (text[end] == "{") - (text[end] == "}")
            end += 1
        yield match.start(), end, match.group(1), match.group(2), text[match.end():end - 1]


def leaves(path, text):
    """The names of a group, each with the module that it is of."""
    for member in members(text):
        inner = INNER.fullmatch(member)
        if inner:
            yield from leaves("%s.%s" % (path, inner.group(1)), inner.group(2))
        else:
            outer, _, name = member.partition(" as ")[0].rpartition(".")
            yield ("%s.%s" % (path, outer) if outer else path), member[len(outer) + 1:] if outer else member


def imported(text):
    """Each name that a file brings in by a group: its module, its name there, and what the file calls it."""
    for _, _, _, path, inner in groups(text):
        for module, name in leaves(path, inner):
            there, _, here = name.partition(" as ")
            yield module, there.strip(), (here or there).strip()
