"""What the scripts share: where the repository is, how their words are read, and what has to be there."""
import argparse
import importlib.util
import os
import shutil
import sys

ROOT = os.path.dirname(os.path.dirname(os.path.realpath(__file__)))
PROGRAM = os.path.join(ROOT, "crates", "dnsmsg", "out", "dnsmsg")

# The toolchain's folder.
KIT = os.path.dirname(os.path.dirname(os.path.realpath(shutil.which("rt") or "rt/rt")))

# The status where something that a script wants is missing, as of `./dnsmsg`.
MISSING = 69


def parser(about):
    """A parser of words, whose help is this text as it stands."""
    return argparse.ArgumentParser(description=about, formatter_class=argparse.RawDescriptionHelpFormatter)


def part(parts, name, about):
    """A parser of the words after this one, whose help is this text; the list of such words has its first line."""
    return parts.add_parser(name, help=about.split("\n", 1)[0], description=about,
                            formatter_class=argparse.RawDescriptionHelpFormatter)


def take_program(words, name="--program"):
    """Lets the words name another program than the one that was built."""
    words.add_argument(name, dest="program", default=PROGRAM, metavar="FILE", help="run this program in place of that one")


def missing(what):
    """Ends with one line that says what is missing."""
    print(f"{os.path.basename(sys.argv[0])}: {what}", file=sys.stderr)
    sys.exit(MISSING)


def need(*tools):
    """Asks that each of these tools is on the path."""
    lacking = [tool for tool in tools if not shutil.which(tool)]
    if lacking:
        missing(f"not on the path: {', '.join(lacking)}")


def need_module(name, package):
    """Asks that Python has this module, which the package gives."""
    if not importlib.util.find_spec(name):
        missing(f"{sys.executable} has no module {name}: it wants {package}")


def need_program(path):
    """Asks that the program is there, and answers its path."""
    if not os.access(path, os.X_OK):
        missing(f"there is no program {os.path.relpath(path)}: build it, as by ./dnsmsg")
    return os.path.abspath(path)


def link_kit(kit, others):
    """A copy of the toolchain, by links and with its command as it stands, in which the files at these paths are left out,
    so that others can stand there."""
    def fill(folder):
        os.makedirs(os.path.join(kit, folder))
        for name in os.listdir(os.path.join(KIT, folder)):
            path = os.path.join(folder, name)
            if path in others:
                continue
            if path == "bin" or any(other.startswith(f"{path}/") for other in others):
                fill(path)
            elif path in ("bin/rt", "bin/rtlib.py"):
                shutil.copy(os.path.join(KIT, path), os.path.join(kit, path))
            else:
                os.symlink(os.path.join(KIT, path), os.path.join(kit, path))

    fill("")
