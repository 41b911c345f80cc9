"""Random zones of a few owners, and updates of them, many of which ask for what stands there."""
import random

from data import A, AAAA, ANAME, ANY, ANY_CLASS, CNAME, IN, MX, NONE_CLASS, NS, PTR, SIG, SOA, SRV, TXT, TYPES, Data, data_text
from messages import UPDATE, Message, Question, Record
from names import name_text, parse_name
from random_messages import chance

ORIGIN = parse_name("example.", None)
OWNERS = [parse_name(it, ORIGIN) for it in ("@", "www", "WWW", "a", "b.a", "ns", "EXAMPLE.", "*")]
OUTSIDE = [parse_name(it, None) for it in ("com.", ".", "xexample.", "a.example.org.")]
TARGETS = [parse_name(it, ORIGIN) for it in ("ns", "NS", "ns2", "www", "Www")]
WITH_TEXT = [A, A, A, NS, NS, CNAME, MX, TXT, SRV, AAAA, ANAME, PTR]
KINDS = [*WITH_TEXT, CNAME, TXT, 46, 99]
ODD_KINDS = [0, SOA, 11, SIG, 128, 250, 251, 252, 253, 254, ANY]
CHAOS = 3


def target():
    return random.choice(TARGETS)


FIELDS = {
    A: lambda: (bytes([192, 0, 2, random.randrange(1, 4)]),),
    AAAA: lambda: (bytes(15) + bytes([random.randrange(1, 3)]),),
    NS: lambda: (target(),),
    CNAME: lambda: (target(),),
    PTR: lambda: (target(),),
    ANAME: lambda: (target(),),
    MX: lambda: (random.randrange(1, 3), target()),
    SRV: lambda: (1, 2, random.randrange(2), target()),
    SOA: lambda: (target(), target(), random.randrange(3), 1, 2, 3, 4),
    TXT: lambda: tuple(random.choices([b"x", b"X", b"y"], k=random.randrange(1, 3))),
}


def data(kind):
    return Data(kind, FIELDS.get(kind, lambda: (random.choice([b"\1", b"\2"]),))())


def zone():
    lines = ["@ 3600 SOA ns hostmaster 1 2 3 4 5\n"] if chance(0.9) else []
    for _ in range(random.randrange(8)):
        kind = random.choice(WITH_TEXT)
        dns_class = random.choice(["CH", "ANY"]) if chance(0.01) else "IN"
        ttl = random.choice([60, 300])
        lines.append(f"{name_text(random.choice(OWNERS))} {ttl} {dns_class} {TYPES[kind]} {data_text(data(kind))}\n")
    return "".join(lines) + ("x\n" if chance(0.01) else "")


def owner():
    return random.choice(OUTSIDE if chance(0.02) else OWNERS)


def kind_of(part):
    return random.choice(ODD_KINDS if chance(part) else KINDS)


def prerequisite():
    kind, ttl = kind_of(0.03), 5 if chance(0.02) else 0
    pick = random.random()
    if pick < 0.5:
        kind = ANY if chance(0.3) else kind
        return Record(owner(), ANY_CLASS if pick < 0.3 else NONE_CLASS, False, ttl, data(kind) if chance(0.02) else Data(kind))
    return Record(owner(), CHAOS if chance(0.03) else IN, chance(0.1), ttl, Data(kind) if chance(0.03) else data(kind))


def prerequisites_of(sets):
    """The records of some sets, mostly all of them."""
    found = []
    for key in random.sample(list(sets), min(len(sets), random.choice([1, 1, 2]))):
        records = random.sample(sets[key], len(sets[key]))
        if key[1] != SOA:
            found += records[chance(0.15) :] + (records if chance(0.1) else [])
    return [it._replace(ttl=0) for it in found]


def change_of(sets):
    """One that concerns a record of a set: it goes, or comes again with another TTL."""
    record = random.choice([it for records in sets.values() for it in records])
    if record.data.type == SOA:
        return change()
    return record._replace(ttl=60) if chance(0.3) else record._replace(ttl=0, dns_class=NONE_CLASS)


def change():
    kind, ttl = kind_of(0.015), 5 if chance(0.01) else 0
    pick = random.random()
    if pick < 0.5:
        ttl = random.choice([0, 60, 300])
        return Record(owner(), CHAOS if chance(0.02) else IN, chance(0.1), ttl, Data(kind) if chance(0.02) else data(kind))
    if pick < 0.7:
        kind = ANY if chance(0.3) else kind
        return Record(owner(), ANY_CLASS, False, ttl, data(kind) if chance(0.01) else Data(kind))
    return Record(owner(), NONE_CLASS, False, ttl, Data(kind) if chance(0.03) else data(kind))


def update(sets):
    """An update of these sets, or nearly one."""
    made = Message(7, False, 0 if chance(0.15) else UPDATE, set(), 0)
    name = random.choice(OWNERS) if chance(0.02) else ORIGIN
    dns_class = random.choice([CHAOS, NONE_CLASS, ANY_CLASS]) if chance(0.015) else IN
    question = Question(name, A if chance(0.015) else SOA, dns_class, chance(0.05))
    made.questions = [question] * (random.choice([0, 2]) if chance(0.02) else 1)
    asked = prerequisites_of(sets) if chance(0.5) else []
    asked += [prerequisite() for _ in range(random.choice([0, 0, 0, 1, 2]))]
    changes = [change_of(sets) if sets and chance(0.2) else change() for _ in range(random.randrange(6))]
    made.sections = [asked, changes, []]
    return made
