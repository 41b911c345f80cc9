"""Finds the definitions and lemmas of the crates that nothing uses.

A definition is used where a source's `ghost use` or attribute names it, where the proof of a function does, where an edit
has its name, or where another definition that is used does. Fields and constructors count as their type.
"""
import os
import re

from common import ROOT

WORD = re.compile(r"[^\s(){}\[\],;.|:]+")
COMMENT = re.compile(r"(^|[ \t])--([ \t].*)?$", re.M)
IMPORT = re.compile(r"^\s*(?:ghost )?use (Rattle[\w.]*)\.\{([^}]*)\};?$", re.M)
MODULE = re.compile(r"^\s*(?:ghost )?use (Rattle[\w.]*) as (\S+?);?$", re.M)
ATTRIBUTE = re.compile(r"(\w+)::(specs|proofs)::([\w:]+)::([\w-]+)")
HEAD = re.compile(r"^\s*(?:(?:pub|abbrev|unfoldable)\s+)*(?:(?:record|data|ruleset)\s+)?([^\s:(){}\[\],.]+)\s*(.*)$")
# The files in which the toolchain looks for the proof of a function.
OF_FUNCTION = re.compile(r".*/(Answers|Invariants|Proof)\.antt")
KIND = re.compile(r"^\s*(?:pub )?(?:(?:record|data) .*:|ruleset .*=)")


class File:
    """A file of specs/ or proofs/: its definitions by name, each with its line and text, and what it imports."""

    def __init__(self, module, path, text):
        self.module, self.path = module, path
        self.names = {}
        self.imports = {}
        for home, names in IMPORT.findall(text):
            for name in names.split(","):
                was, _, now = name.strip().partition(" as ")
                self.imports[now or was] = (home, was)
        self.modules = {name: home for home, name in MODULE.findall(text)}
        self.take(COMMENT.sub("", text).split("\n"))

    def take(self, lines):
        """Cuts the lines into definitions: one begins where a name and a colon stand no deeper than the one before."""
        self.loose, here, depth = [], None, None
        for number, line in enumerate(lines, 1):
            if not line.strip() or re.match(r"\s*(ghost )?use ", line):
                continue
            indent = len(line) - len(line.lstrip())
            head = HEAD.match(line)
            if line.lstrip().startswith("module "):
                here, depth = self.loose, None
            elif head and (KIND.match(line) or head[2].startswith(":") and (depth is None or indent <= depth)):
                here, depth = [], indent
                self.names.setdefault(head[1], (number, here))
            (self.loose if here is None else here).append(line)

    def used_by(self, lines):
        """The definitions that these lines of the file name, as a module and a name."""
        words = set(WORD.findall("\n".join(lines)))
        for word in words:
            if word in self.imports:
                yield self.imports[word]
            if word in self.names:
                yield self.module, word
            if word in self.modules:
                for other in words:
                    yield self.modules[word], other


def files_below(folder, ends):
    """Each file below a folder with such an end, as its path from there and its text."""
    for top, _, names in os.walk(folder):
        for name in names:
            if name.endswith(ends):
                path = os.path.join(top, name)
                with open(path, encoding="utf-8") as file:
                    yield os.path.relpath(path, folder), file.read()


def unused():
    """Each definition that nothing uses, as its path, its line and its name."""
    files, begins, written = {}, set(), set()
    for crate in sorted(os.listdir(f"{ROOT}/crates")):
        for kind in ("specs", "proofs"):
            for path, text in files_below(f"{ROOT}/crates/{crate}/{kind}", ".antt"):
                if path != "Lib.antt":
                    module = f"Rattle.{crate}.{kind}.{path.removesuffix('.antt').replace('/', '.')}"
                    files[module] = File(module, f"crates/{crate}/{kind}/{path}", text)
        for _, text in files_below(f"{ROOT}/crates/{crate}/src", ".rt"):
            for home, names in IMPORT.findall(text):
                begins.update((home, name.strip().split(" as ")[0]) for name in names.split(","))
            for home, name in MODULE.findall(text):
                begins.update((home, word) for word in WORD.findall(text))
            for home, kind, path, name in ATTRIBUTE.findall(text):
                home = crate if home == "crate" else home
                begins.add((f"Rattle.{home}.{kind}.{path.replace('::', '.')}", name))
        for _, text in files_below(f"{ROOT}/crates/{crate}/must-fail", ".edit"):
            written.update(WORD.findall(text))
    for _, text in files_below(f"{ROOT}/wrong_bodies", ".edit"):
        written.update(WORD.findall(text))
    for module, file in files.items():
        begins.update(file.used_by(file.loose))
        of_function = OF_FUNCTION.fullmatch(file.path)
        begins.update((module, name) for name in file.names if of_function or name in written)
    seen, left = set(), [one for one in begins if one[0] in files and one[1] in files[one[0]].names]
    while left:
        module, name = one = left.pop()
        if one not in seen:
            seen.add(one)
            left += [other for other in files[module].used_by(files[module].names[name][1])
                     if other[0] in files and other[1] in files[other[0]].names]
    for module, file in sorted(files.items()):
        for name, (line, _) in file.names.items():
            if (module, name) not in seen:
                yield file.path, line, name
