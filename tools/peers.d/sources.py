"""Other people's sources, as Debian has them: what lies unpacked or as an archive in a folder, or is fetched into it."""

import subprocess
import sys
import tarfile
from pathlib import Path

ORIGIN = "deb-src http://deb.debian.org/debian bookworm main\n"


def fetch(package, folder):
    """Fetches the source package with apt, whose own lists are left alone."""
    apt = folder / "apt"
    for name in ("lists/partial", "cache/archives/partial"):
        (apt / name).mkdir(parents=True, exist_ok=True)
    (apt / "sources.list").write_text(ORIGIN)
    options = ["Dir::Etc::sourcelist=%s/sources.list" % apt, "Dir::Etc::sourceparts=/dev/null", "Dir::State::lists=%s/lists" % apt,
               "Dir::Cache=%s/cache" % apt, "APT::Sandbox::User=root"]
    words = [word for option in options for word in ("-o", option)]
    for command in (["update"], ["source", "--download-only", package]):
        subprocess.run(["apt-get", "-qq", *words, *command], cwd=folder, check=False, stdout=subprocess.DEVNULL)


def archive(package, folder):
    found = sorted(folder.glob(package + "_*.orig.tar.*"))
    return next((it for it in found if not it.name.endswith(".asc")), None)


def members_of(opened, parts):
    return [it for it in opened.getmembers() if it.isfile() and any(part in it.name for part in parts)]


def unpack(path, parts, folder):
    """Unpacks what has one of these parts in its name; also from an archive inside the archive."""
    with tarfile.open(path) as opened:
        wanted = members_of(opened, parts)
        opened.extractall(folder, wanted)
        for inner in () if wanted else opened.getmembers():
            if ".tar." in inner.name and inner.name.split("/")[-1].startswith(path.name.split("-")[0]):
                with tarfile.open(fileobj=opened.extractfile(inner), mode="r|*") as nested:
                    for member in nested:
                        if member.isfile() and any(part in member.name for part in parts):
                            nested.extract(member, folder)


def source(package, parts, folder, may_fetch):
    """The folder of an unpacked package, and its version. `parts` are what is wanted of it, by parts of the paths."""
    folder.mkdir(parents=True, exist_ok=True)
    name = package.rstrip("0123456789").rstrip("-")
    for attempt in ("unpacked", "archive", "fetched"):
        if attempt == "archive" and archive(package, folder):
            unpack(archive(package, folder), parts, folder)
        elif attempt == "fetched" and may_fetch:
            print("peers: fetching %s" % package, file=sys.stderr, flush=True)
            fetch(package, folder)
            if archive(package, folder):
                unpack(archive(package, folder), parts, folder)
        found = [it for it in sorted(folder.glob(name + "-*")) if it.is_dir() and any(it.rglob("*"))]
        if found:
            return found[0], found[0].name[len(name) + 1:].removesuffix("-dfsg")
    return None, None
