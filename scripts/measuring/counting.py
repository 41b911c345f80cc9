"""What the scripts that measure share: the programs that are run, and what one run of them takes."""
import os
import re
import shutil
import subprocess
import sys

from common import ROOT

SOURCES = os.path.join(ROOT, "scripts", "measuring")

# the crates below the program that loops over its input, and those between them and `dnsmsg` or `capi`
BELOW = ["base", "base_data", "rr", "op", "txt"]
BETWEEN = ["op_use", "parsed_zone"]


def copy_commit(root, copy):
    """The last commit of a checkout, in a folder of its own."""
    subprocess.run(f"git -C '{root}' archive HEAD | tar x -C '{copy}' && git init -q '{copy}'", shell=True, check=True)


def copy_kept(root, copy, crates):
    """What earlier checks of the crates kept."""
    for crate in crates:
        if os.path.isdir(f"{root}/crates/{crate}/out"):
            shutil.copytree(f"{root}/crates/{crate}/out", f"{copy}/crates/{crate}/out")


def run_or_end(command, folder):
    """Runs a command in a folder, and ends with what it said where it fails."""
    ran = subprocess.run(command, cwd=folder, stdin=subprocess.DEVNULL, capture_output=True, text=True, check=False)
    if ran.returncode:
        sys.exit(ran.stdout + ran.stderr)


def built(crate, name, words):
    """The program of a crate, proved and built."""
    program = f"{crate}/out/{name}"
    if os.path.exists(program):
        os.remove(program)
    ran = subprocess.run(["rt", "run", "--jobs", "2", "--", *words], cwd=crate, input="", capture_output=True, text=True)
    if not os.path.exists(program):
        sys.exit(ran.stdout + ran.stderr)
    return program


def build_measured(copy, name, words):
    """A program of this folder, built in a copy of the repository."""
    with open(f"{copy}/crates.txt", "a", encoding="utf-8") as crates:
        crates.write(f"{name}: {' '.join(BELOW)}\n")
    folder = f"{copy}/crates/{name}"
    os.makedirs(f"{folder}/src")
    shutil.copy(f"{SOURCES}/{name}.rt.txt", f"{folder}/src/main.rt")
    return built(folder, name, words)


def build_loop(copy):
    """The program that loops over the message on its input."""
    return build_measured(copy, "measure", ["read", "0"])


def under(valgrind, program, words, given):
    """What valgrind says of one run over this input, and what the run printed."""
    ran = subprocess.run(["valgrind", *valgrind, program, *words], input=given, capture_output=True, check=False)
    return ran.stderr.decode(), ran.stdout


def instructions(program, words, given, within=None):
    """Instructions of one run, or of the calls of one function in it, counted by callgrind, and what it printed."""
    alone = [f"--toggle-collect={within}"] if within else []
    said, printed = under(["--tool=callgrind", "--callgrind-out-file=/dev/null", *alone], program, words, given)
    return int(re.search(r"Collected : (\d+)", said)[1]), printed


def allocations(program, words, given):
    """How often one run asked for memory or let some grow, and for how many bytes in all."""
    said, _ = under(["--tool=memcheck", "--leak-check=no"], program, words, given)
    times, size = re.search(r"total heap usage: ([\d,]+) allocs, .* ([\d,]+) bytes allocated", said).groups()
    return int(times.replace(",", "")), int(size.replace(",", ""))


def of_one(program, what, given, times):
    """Instructions of one of the loops over this input, of so many that are counted; nothing of what is refused."""
    once, printed = instructions(program, [what, "1"], given)
    if int(printed) <= 0:
        return None
    return round((instructions(program, [what, str(1 + times)], given)[0] - once) / times)


def memory_of_one(program, what, given):
    """How often one of the loops asked for memory or let some grow, and for how many bytes in all."""
    few, many = (allocations(program, [what, times], given) for times in ("1", "3"))
    return [(after - before) / 2 for before, after in zip(few, many)]


def most_bytes(program, words, given):
    """The most bytes of memory that one run had at once, counted by dhat."""
    said, _ = under(["--tool=dhat", "--dhat-out-file=/dev/null"], program, words, given)
    return int(re.search(r"At t-gmax:\s+([\d,]+) bytes", said)[1].replace(",", ""))


def seconds(command, given=None):
    """Seconds of processor of one run over the file at this path, and its status."""
    with open(given or os.devnull, "rb") as file:
        ran = subprocess.Popen(command, stdin=file, stdout=subprocess.DEVNULL, stderr=subprocess.DEVNULL)
        _, status, used = os.wait4(ran.pid, 0)
        ran.returncode = os.waitstatus_to_exitcode(status)
    return used.ru_utime + used.ru_stime, ran.returncode
