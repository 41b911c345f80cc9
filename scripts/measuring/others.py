"""The programs that loop over other libraries, or over the one for C; what isn't there is left out, and a line says so."""
import glob
import os
import shutil
import subprocess
import sys

from counting import SOURCES, run_or_end

REGISTRY = "/usr/share/cargo/registry"
SOURCE = ["--config", 'source.crates-io.replace-with = "debian"', "--config", f'source.debian.directory = "{REGISTRY}"']


def left_out(what, package):
    print(f"measure: without {what}: it wants {package}", file=sys.stderr)


def build_trust_dns(folder):
    """The program over trust-dns-proto 0.22, as Debian has it, built by cargo as its users build a release at its best,
    with LTO and in one unit; or nothing."""
    if not (shutil.which("cargo") and glob.glob(f"{REGISTRY}/trust-dns-proto-0.22.*")):
        left_out("trust-dns-proto", "cargo and Debian's librust-trust-dns-proto-dev")
        return None
    copy = shutil.copytree(f"{SOURCES}/trust_dns", f"{folder}/trust_dns")
    run_or_end(["cargo", "build", "--release", "--offline", "--target-dir", f"{copy}/target", *SOURCE], copy)
    return f"{copy}/target/release/trust_dns"


def build_limit(folder):
    """The program that does the least that reading and writing a message take; or nothing."""
    if not shutil.which("cc"):
        left_out("the limit", "a C compiler")
        return None
    run_or_end(["cc", "-O2", "-o", f"{folder}/limit", f"{SOURCES}/limit.c"], folder)
    return f"{folder}/limit"


def build_ldns(folder):
    """The program over ldns; or nothing."""
    if not (shutil.which("cc") and os.path.exists("/usr/include/ldns/ldns.h")):
        left_out("ldns", "a C compiler and Debian's libldns-dev")
        return None
    run_or_end(["cc", "-O2", "-o", f"{folder}/with_ldns", f"{SOURCES}/with_ldns.c", "-lldns"], folder)
    return f"{folder}/with_ldns"


def build_server(copy):
    """The name server in C, of a copy of the repository."""
    run_or_end(["rt", "lib"], f"{copy}/crates/capi")
    run_or_end(["make", "build/nameserver"], f"{copy}/bindings/c")
    return f"{copy}/bindings/c/build/nameserver"


def build_archive(copy, name="archive"):
    """The program of this name over the library for C, of a copy of the repository."""
    run_or_end(["rt", "lib"], f"{copy}/crates/capi")
    run_or_end(["make", "build/libfuzsbanel.a"], f"{copy}/bindings/c")
    built = f"{copy}/bindings/c/build"
    command = ["cc", "-O2", "-I", f"{copy}/include", "-o", f"{built}/{name}", f"{SOURCES}/{name}.c", f"{built}/libfuzsbanel.a"]
    run_or_end(command, copy)
    return f"{built}/{name}"
