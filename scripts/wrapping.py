"""How a line of definitions or proofs is wrapped at 120 columns."""
import re

WIDTH = 120

# Before these words a line may be broken, first before those that bind least.
LOOSE = {"→": 0, "∙": 1, "×": 1, "↔": 1, "then": 1, "else": 1, "||": 2, "&&": 2, "≡": 3, "≢": 3, "++": 4, "∷": 5, "+": 6}
OPERATORS = {*LOOSE, "<&&>", "∘", ">>=", "∨"}
# After these no line is broken.
HOLDING = {*OPERATORS, "use", "pub", "module", "private", "let", "λ", "as", "open", "data", "unfolding"}


def places(line, indent):
    """The spaces at which a line may be broken: the place, how many brackets are open there, and how much it hurts."""
    depth, in_text, at = 0, False, 0
    while at < len(line):
        char = line[at]
        if in_text:
            at += char == "\\"
            in_text = char != '"'
        elif char == '"':
            in_text = True
        elif char in "([{":
            depth += 1
        elif char in ")]}":
            depth -= 1
        elif char == " " and at > indent + 8:
            before, after = line[:at].rsplit(" ", 1)[-1], line[at + 1:].split(" ", 1)[0]
            if after in OPERATORS and before != "(":
                yield at, depth, LOOSE.get(after, 2)
            elif after not in ("", "=", ":") and before not in HOLDING:
                yield at, depth, cost_between(before, after)
        at += 1


def cost_between(before, after):
    """How much it hurts to break a line between two words that are no operators."""
    if before in ("=", "in"):
        return 0
    if after == "let" or before.endswith((",", ";")):
        return 1
    if after == "in":
        return 6
    return 3 if before.endswith(".") or after.startswith("(") else 5


def wrapped_comment(line, indent):
    begins = " " * indent + "--"
    lines = [begins]
    for word in line[indent + 2:].split():
        if len(lines[-1]) + 1 + len(word) > WIDTH:
            lines.append(begins)
        lines[-1] += f" {word}"
    return lines


def wrapped_import(begins, names):
    """An import whose names have no room is several, each of the same module."""
    lines, held = [], []
    for name in re.split(r", *(?![^{]*\})", names):
        if held and len(f"{begins}{', '.join([*held, name])}}}") > WIDTH:
            lines.append(f"{begins}{', '.join(held)}}}")
            held = []
        held.append(name)
    return [*lines, f"{begins}{', '.join(held)}}}"]


def wrapped(line):
    """The lines that a line of definitions or proofs takes."""
    if len(line) <= WIDTH:
        return [line]
    indent = len(line) - len(line.lstrip(" "))
    if line[indent:].startswith("--"):
        return wrapped_comment(line, indent)
    if of_module := re.fullmatch(r"((?:pub )?use [^{]*\{)(.*)\}", line):
        return wrapped_import(*of_module.groups())
    first = line[indent:].split(" ", 1)[0]
    further, lines, rest, begins = None, [], line, indent
    while len(rest) > WIDTH:
        found = [place for place in places(rest, begins) if place[0] <= WIDTH]
        found = [place for place in found if place[0] > begins + 40] or found
        if not found:
            break
        at, depth, _ = min(found, key=lambda place: (place[1] * 4 + place[2], -place[0]))
        if further is None:
            goes_on = first in OPERATORS and depth == 0 and rest[at + 1:].split(" ", 1)[0] in OPERATORS
            further = indent + (4 if first == "module" else 0 if goes_on else 2)
        lines.append(rest[:at].rstrip())
        rest, begins = " " * further + rest[at + 1:], further
    return [*lines, rest]
