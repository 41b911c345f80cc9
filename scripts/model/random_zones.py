"""Random zone texts: most lines are well made, some have items of another kind, and some texts are damaged."""
import random

from data import TYPES
from random_messages import chance

LONG = ".".join(["a" * 63] * 3)
GOOD_NAMES = ["a", "b.", "www", "WWW", "ns.a.", "x.y", "*", ".", r"\065", r"a\.b", "_tcp", "example.", "sub.example.", "www.a."]
NAMES = [*GOOD_NAMES, "@", "a..b", ".a", r"\.", r"\300", r"\1", r"\@", "é", "a" * 63, "a" * 64, LONG, f"{LONG}.{'b' * 61}"]
NAMES += [f"{LONG}.{'b' * 62}", "1", "IN", "A", "60", r"a\"b", r"a\;b", r"\(", "-", "a/b", "ä.", "x'y", "a$b", r"\$x", r"\é"]
TTLS = ["0", "60", "1h", "1h30", "1w2d3h4m5s", "4294967295", "4294967296", "5x", "m", "1H1h", "007", "1d1d", "7101w", "7102w"]
CLASSES = ["IN", "in", "CH", "HS", "NONE", "ANY", "*", "any", "CLASS1", "Ch"]
GOOD_TYPES = ["A", "A", "A", "AAAA", "NS", "CNAME", "PTR", "MX", "TXT", "SRV", "SOA", "ANAME", "a", "ns"]
KINDS = [*TYPES.values(), "a", "aaaa", "Txt", "TYPE1", "WKS", "mx", "soa", "É"]
ADDRESSES = ["192.0.2.1", "192.0.2.2", "0.0.0.0", "255.255.255.255", "1.2.3", "1.2.3.4.5", "256.1.1.1", "01.2.3.4", "1.2.3."]
ADDRESSES += ["1.2.3.x", "1.2.3.00", "+1.2.3.4", "١.2.3.4"]
GOOD_GROUPS = ["::", "::1", "1::", "2001:db8::1", "2001:DB8:0:0:1:0:0:1", "1:2:3:4:5:6:7:8", "::ffff:1.2.3.4"]
GROUPS = [*GOOD_GROUPS, "1:2:3:4:5:6:7::", "::2:3:4:5:6:7:8", "1:2:3:4::5:6:7:8", "1:2:3:4:5:6:1.2.3.4", "1::2::3", ":::"]
GROUPS += ["1:2:3:4:5:6:7:1.2.3.4", "::1.2.3", ":1", "1:", "12345::", "g::", "::1.2.3.04", "1.2.3.4", "1.2.3.4::", "::1%eth"]
GROUPS += ["0:0:0:0:0:0:0:0", "1:0:0:2:0:0:0:3", "1:0:0:2:0:0:3:4", "::00001", "::0001", "1:2:3:4:5:6:7", "1:2:3:4:5:6:7:8:9"]
GROUPS += ["::1:1.2.3.4:2", "1::1.2.3.4", "1:2:3:4:5::1.2.3.4", "1:2:3:4:5:6::1.2.3.4"]
STRINGS = ["x", '"x;y"', '"a b"', r"z\"q", r"\065", r"\300", r"\1", '""', '"a\nb"', "é", r'"\é"', "a" * 255, "a" * 256]
STRINGS += [r'"\255"', r"\\", '"("', "x)", r'"a\"b"', "\x01", "\x7f", "~", r'"\ "', r"\ "]
NUMBERS = ["0", "1", "65535", "65536", "-1", "+1", "01", "x", "4294967295", "4294967296", "1h", "00000000001"]
LINE_ENDS = ["\n", "\n", "\n", "\r\n", "\r", " ; comment\n", ";x\r\n", " \t\n"]


def one(good, others):
    return random.choice(good if chance(0.93) else others)


def name():
    return one(GOOD_NAMES, NAMES)


def number():
    return one(NUMBERS[:3], NUMBERS)


def ttl():
    return one(TTLS[:6], TTLS)


ITEMS = {
    "A": lambda: [one(ADDRESSES[:2], ADDRESSES)],
    "AAAA": lambda: [one(GOOD_GROUPS, GROUPS)],
    "NS": lambda: [name()],
    "CNAME": lambda: [name()],
    "PTR": lambda: [name()],
    "ANAME": lambda: [name()],
    "MX": lambda: [number(), name()],
    "SRV": lambda: [number(), number(), number(), name()],
    "SOA": lambda: [name(), name(), number(), ttl(), ttl(), ttl(), ttl()],
    "TXT": lambda: [one(STRINGS[:4], STRINGS) for _ in range(random.randrange(1, 4))],
}


def in_parentheses(items):
    """The items, some of them in a list, over several lines."""
    start = random.randrange(len(items) + 1)
    end = random.randrange(start, len(items) + 1)
    inner = "".join(random.choice([" ", "\n", " ; c\n ", "\t", "\r\n", "\r"]) + it for it in items[start:end])
    return [*items[:start], f"({inner}{random.choice(['', ' ', chr(10)])})", *items[end:]]


def data(kind):
    items = ITEMS.get(kind.upper(), lambda: random.choices(NUMBERS + NAMES, k=random.randrange(3)))()
    if chance(0.03):
        items = items[:-1] if chance(0.5) else [*items, "x"]
    return in_parentheses(items) if chance(0.15) else items


def owner():
    pick = random.random()
    if pick < 0.35:
        return random.choice([" ", "\t", "  "])
    if pick < 0.45:
        return "@ "
    if pick < 0.98:
        return name() + " "
    return random.choice(['"q" ', "(x) ", "$X ", "$ORIGIN", '"@" ', '"$TTL" ', "@@ ", "\\\n ", "( ", ") "])


def directive():
    return random.choice([
        "$ORIGIN " + one(["a.", "b.a.", "example."], [*NAMES, "(x)", "", "$TTL"]) + random.choice(["\n", " "]),
        "$TTL " + one(TTLS[:5], [*TTLS, "", "@"]) + random.choice(["\n", " "]),
        "$INCLUDE " + one(["f", "g", "h"], ["nope", "", '"f"', "@", "f x", "(f)", '"f g"', r"f\ "]) + random.choice(LINE_ENDS),
    ])


def line():
    if chance(0.15):
        return directive()
    if chance(0.05):
        return random.choice(["", " ", "\t ", "; c", " ; c"]) + random.choice(LINE_ENDS)
    parts = [ttl()] if chance(0.55) else []
    if chance(0.3):
        parts.insert(random.randrange(len(parts) + 1), one(CLASSES[:3], CLASSES))
    if chance(0.05):
        parts.append(random.choice(TTLS + CLASSES))
    if chance(0.93):
        kind = one(GOOD_TYPES, KINDS)
        parts += [kind, *data(kind)]
    if chance(0.02):
        odd = random.choice(["@", "$ORIGIN", "$TTL", "(", ")", "()", '"', "\\", ";", "$"])
        parts.insert(random.randrange(len(parts) + 1), odd)
    return owner() + random.choice([" ", " ", "\t", "  "]).join(parts) + random.choice(LINE_ENDS)


def text(lines):
    found = "".join(line() for _ in range(lines))
    if chance(0.2):
        found = found.rstrip("\r\n")
    if chance(0.08):
        at = random.randrange(len(found) + 1)
        found = found[:at] + random.choice([*' \t\n\r;()"\\@$.é0a', ""]) + found[at + random.randrange(2) :]
    if chance(0.03):
        found = found[: random.randrange(len(found) + 1)]
    return found


def zone():
    """A text, and texts that it may include."""
    head = random.choice(["", "$TTL 1h\n", "$TTL 60\n", "$ORIGIN a.\n@ 60 A 192.0.2.1\n", "$TTL 300\nb. A 192.0.2.1\n"])
    return head + text(random.choice([1, 2, 3, 4, 6, 10])), {it: text(random.randrange(3)) for it in "fgh"}
