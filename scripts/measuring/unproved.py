"""A program before anything is proved: the checks that `rt try` compiles in are taken as facts, as a proof makes them."""
import glob
import os
import re
import shutil
import subprocess
import sys

from common import KIT, link_kit
from counting import SOURCES

CLANG = f"{KIT}/toolchain/bin/clang"
TARGET = ["--target=x86_64-unknown-linux-gnu", "--no-default-config", "-fintegrated-cc1"]
# as the toolchain builds a program that is proved
BUILT = ["-O3", "-fPIE", "-march=x86-64", "-ffunction-sections", "-fdata-sections",
         *(word for flag in ("-no-trap-after-noreturn", "-trap-unreachable", "-no-x86-call-frame-opt", "-disable-machine-licm",
                             "-disable-postra-machine-licm", "-sink-common-insts=false") for word in ("-mllvm", flag))]

# What stands in the place of the compiler: it does as ever, and the code of the program is kept.
COMPILER = f"""#!/bin/bash
for word in "$@"; do case $word in *.bc) [ "$(stat -c %s "$word")" -lt 200000 ] || cp "$word" KEPT ;; esac; done
exec -a "$0" {CLANG} "$@"
"""

IMPL = re.compile(r"impl(?:<[^>]*>)?\s+(?:[\w:]+(?:<.*>)?\s+for\s+)?([\w:]+)")
INLINED = re.compile(r"#\[inline\((always|never)\)\]")
FUNCTION = re.compile(r"^\s*(?:pub(?:\([a-z]+\))? )?fn (\w+)")
MEANT = {"always": "alwaysinline", "never": "noinline"}


def said_of_inlining(copy):
    """What the sources say of inlining: a crate, the type or the module, a function, and what is meant."""
    for path in glob.glob(f"{copy}/crates/*/src/**/*.rt", recursive=True):
        crate, _, inside = path.removeprefix(f"{copy}/crates/").partition("/src/")
        module = "::".join([crate, *(part for part in inside.removesuffix(".rt").split("/") if part not in ("lib", "main"))])
        its_type = said = None
        with open(path, encoding="utf-8") as file:
            for line in file:
                if found := IMPL.match(line):
                    its_type = found[1].split("::")[-1]
                elif line.startswith("}"):
                    its_type = None
                elif found := INLINED.search(line):
                    said = MEANT[found[1]]
                elif (found := FUNCTION.match(line)) and said:
                    yield crate, its_type, module, found[1], said
                    said = None


def meant_for(symbol, inlining):
    """What is said of the function of this symbol."""
    if "Vec::extend_from_slice" in symbol:
        return "alwaysinline"
    parts = re.sub(r"::<[^>]*>", "", symbol).split("::")
    for crate, its_type, module, name, meant in inlining:
        if parts[0] == crate and parts[-1] == name:
            if its_type and parts[-2].startswith(its_type) or not its_type and "::".join(parts[:-1]) == module:
                return meant
    return None


def taken_as_facts(code, inlining):
    """The lines of LLVM code without what stops the program at a check, nor what fills places that have no value yet."""
    for line in code.splitlines():
        if "call void @llvm.trap()" in line or "llvm.memset" in line and ", i8 -86, " in line:
            continue
        if line.startswith("define") and (symbol := re.search(r'@"([^"]+)"\(', line)):
            meant = "alwaysinline" if "rattle-llvm-checks::" in symbol[1] else meant_for(symbol[1], inlining)
            if meant:
                line = re.sub(r"#(\d+) \{", rf"#\1 {meant} {{", line)
        elif line.startswith("attributes"):
            line = re.sub(r'sanitize_address |"(frame-pointer|probe-stack|stack-probe-size)"="[^"]*" ?', "", line)
            line = re.sub(r"\{ *\}", "{ nounwind }", line)
        yield line


def compiled(arguments, folder):
    ran = subprocess.run(arguments, cwd=folder, capture_output=True, text=True, check=False)
    if ran.returncode:
        sys.exit(ran.stdout + ran.stderr)


def build_unproved(copy, name):
    """A program of this folder, built in a copy of the repository."""
    crate, kit = f"{copy}/crates/{name}", f"{copy}/kit"
    os.makedirs(f"{crate}/src")
    shutil.copy(f"{SOURCES}/{name}.rt.txt", f"{crate}/src/main.rt")
    with open(f"{copy}/crates.txt", "a", encoding="utf-8") as crates:
        crates.write(f"{name}: base base_data rr op\n")
    link_kit(kit, ["toolchain/bin/clang"])
    with open(f"{kit}/toolchain/bin/clang", "w", encoding="utf-8") as file:
        file.write(COMPILER.replace("KEPT", f"{crate}/kept.bc"))
    os.chmod(f"{kit}/toolchain/bin/clang", 0o755)
    ran = subprocess.run([f"{kit}/bin/rt", "try", "--", "read", "0"], cwd=crate, stdin=subprocess.DEVNULL, capture_output=True, text=True)
    if not os.path.exists(f"{crate}/kept.bc"):
        sys.exit(ran.stdout + ran.stderr)
    compiled([CLANG, *TARGET, "-x", "ir", "-S", "-emit-llvm", "-O0", "-Xclang", "-disable-llvm-passes", "kept.bc", "-o", "kept.ll"], crate)
    with open(f"{crate}/kept.ll", encoding="utf-8") as file:
        lines = list(taken_as_facts(file.read(), list(said_of_inlining(copy))))
    with open(f"{crate}/taken.ll", "w", encoding="utf-8") as file:
        file.write("\n".join(lines))
    compiled([CLANG, *TARGET, *BUILT, "-x", "ir", "-c", "taken.ll", "-o", "taken.o"], crate)
    archives = [f"{KIT}/c/{archive}" for archive in ("liblibc_c.a", "libos_c.a")]
    compiled(["cc", "-pie", "-Wl,--gc-sections", "taken.o", *archives, "-o", name], crate)
    return f"{crate}/{name}"
