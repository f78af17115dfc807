"""Finds the kernel's source packages and the tools, and builds the program."""
import glob
import re
import shutil
import subprocess
import sys
from pathlib import Path

HERE = Path(__file__).resolve().parent
PATTERN = "/usr/src/linux-source-*.tar.*"
TOOLS = ("gcc", "tar", "xz", "addr2line")
LAYOUTS = (64, 16384)


def version_of(archive):
    """The version in the name of a package's archive, as 6.12."""
    found = re.search(r"linux-source-([0-9.]+)\.tar", archive)
    return found.group(1) if found else archive


def installed():
    """The archives of all source packages that are installed, the oldest first."""
    return sorted(glob.glob(PATTERN), key=lambda archive: [int(part) for part in version_of(archive).split(".")])


def check_tools():
    """Ends the program with what is missing."""
    missing = [tool for tool in TOOLS if not shutil.which(tool)]
    if missing:
        sys.exit("missing: " + ", ".join(missing) + ". On Debian: apt-get install gcc binutils xz-utils")


def check_archives(archives):
    if not archives:
        sys.exit("missing: a source package of the kernel, %s. On Debian: apt-get install linux-source-6.1" % PATTERN)
    for archive in archives:
        if not Path(archive).is_file():
            sys.exit("missing: %s" % archive)


def build(archive, layout, folder):
    """Builds the program in the folder, from the files that are unpacked there if any are."""
    done = subprocess.run([HERE / "build", archive, str(layout), folder], capture_output=True, text=True)
    if done.returncode:
        raise OSError("the lock code of %s doesn't build:\n%s" % (version_of(archive), done.stderr[:2000]))
    return str(Path(folder) / "steps")


def build_all(archives, layouts, folder):
    """The programs by version and layout. A package is unpacked once."""
    programs = {}
    for archive in archives:
        first = None
        for layout in layouts:
            place = Path(folder) / ("%s-%d" % (version_of(archive), layout))
            if first and not place.exists():
                shutil.copytree(first / "kernel", place / "kernel")
            first = first or place
            programs[version_of(archive), layout] = build(archive, layout, place)
    return programs
