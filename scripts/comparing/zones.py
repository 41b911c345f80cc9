"""Random zone texts, and what dnspython makes of them."""
import random

import dns.name
import dns.rdata
import dns.rdataclass
import dns.rdatatype
import dns.tokenizer
import dns.zonefile

LABELS = ["a", "b", "www", "WWW", "mail", "x-1", "_sip", "_tcp", "n2", "Ab"]
LABELS += [r"a\.b", r"a\032b", r"\065z", r"q\"r", r"s\;t", r"u\(v"]
TTLS = ["60", "3600", "1h", "1d2h", "2w", "90s", "0", "1H30M"]
ADDRESSES = ["::1", "2001:db8::1f", "fe80:0:0:1::", "1:2:3:4:5:6:7:8", "::ffff:192.0.2.7", "2001:DB8::"]
QUOTED = ["a", " ", ";", "(", ")", r"\"", r"\\", r"\065", "\t", "z", "@", "$"]
BARE = ["a", "Z", "0", "-", "=", ":", r"\032", r"\;", r"\\", r"\"", r"\255"]
ORIGIN = dns.name.from_text("example.")


def several(pieces, least, most):
    return "".join(random.choices(pieces, k=random.randrange(least, most)))


def name():
    relative = ".".join(random.choices(LABELS, k=random.choice([1, 1, 1, 2, 3])))
    return relative + random.choice(["", "", "", ".example.", ".Example.com.", "."])


def string():
    return random.choice([several(BARE, 1, 12), '"' + several(QUOTED, 0, 20) + '"', '""'])


def port():
    return str(random.randrange(65536))


KINDS = {
    "A": lambda: [".".join(str(random.randrange(256)) for _ in range(4))],
    "AAAA": lambda: [random.choice(ADDRESSES)],
    "NS": lambda: [name()],
    "PTR": lambda: [name()],
    "MX": lambda: [port(), name()],
    "SRV": lambda: [port(), port(), port(), name()],
    "TXT": lambda: [string() for _ in range(random.choice([1, 1, 2, 3]))],
}


def in_parentheses(items):
    """Some of the items, over as many lines as it likes."""
    begin = random.randrange(len(items) + 1)
    end = random.randrange(begin, len(items) + 1)
    blank = random.choice([" ", "\n ", "; c (x\n "])
    return items[:begin] + ["(" + "".join(blank + item for item in items[begin:end]) + blank + ")"] + items[end:]


def record(owner):
    kind = random.choice(list(KINDS))
    items = KINDS[kind]()
    if random.random() < 0.25:
        items = in_parentheses(items)
    before = random.choice([[], [random.choice(TTLS)], ["IN"], [random.choice(TTLS), "IN"], ["in"]])
    return " ".join([owner, *before, random.choice([kind, kind.lower()]), *items]) + random.choice(["", " ; end"])


def line():
    sort = random.random()
    if sort < 0.08:
        return "$ORIGIN " + random.choice(["sub.example.", "example.", "Other.example."])
    if sort < 0.14:
        return "$TTL " + random.choice(TTLS)
    if sort < 0.2:
        return random.choice(["", "; comment", "   ", "  ; c"])
    return record(random.choice([name(), "@", ""]))


def zone():
    head = ["$ORIGIN example.", "$TTL 300", "@ IN SOA ns hostmaster ( 1 7200 3600 ; r", " 1209600 300 )", "@ NS ns"]
    return "".join(it + "\n" for it in head + [line() for _ in range(random.randrange(1, 12))])


class Added:
    """Takes what dnspython's reader adds. Of equal data the last TTL stands, in the spelling that came with it first."""

    def __init__(self):
        self.manager, self.data = self, {}

    # what else the reader asks of a transaction
    def origin_information(self):
        return ORIGIN, False, ORIGIN

    def check_put_rdataset(self, check):
        pass

    _set_origin = check_put_rdataset

    def add(self, owner, ttl, data):
        key = owner.canonicalize().to_text(), data.rdtype, data.to_digestable()
        if key not in self.data or self.data[key][0] != ttl:
            self.data[key] = ttl, data.to_wire()


def meaning(text):
    """TTL and bytes of the data under each owner and type, of owners in the zone: dnspython keeps no others."""
    added = Added()
    dns.zonefile.Reader(dns.tokenizer.Tokenizer(text), dns.rdataclass.IN, added).read()
    return added.data


def printed(text):
    """The same of a zone that `dnsmsg zone` printed."""
    found = Added()
    for owner, ttl, _, kind, items in (it.split(" ", 4) for it in text.splitlines()[1:]):
        kind = dns.rdatatype.from_text(kind)
        data = dns.rdata.from_text(dns.rdataclass.IN, kind, items, origin=dns.name.root, relativize=False)
        owner = dns.name.from_text(owner)
        if owner.is_subdomain(ORIGIN):
            found.add(owner, int(ttl), data)
    return found.data
