"""Random updates (RFC 2136) of dnspython's, and what a zone is that a server hands out."""
import random

import dns.name
import dns.query
import dns.rdata
import dns.rdataclass
import dns.rdatatype
import dns.update
import dns.zone

NAMES = ["example.", "ns.example.", "www.example.", "WWW.example.", "a.example.", "b.example.", "al.example.", "c.b.example."]
OUTSIDE = "other.test."

KINDS = {
    "A": lambda: f"192.0.2.{random.randrange(4)}",
    "AAAA": lambda: f"2001:db8::{random.randrange(3)}",
    "TXT": lambda: f'"t{random.randrange(3)}"',
    "MX": lambda: f"{random.choice([0, 10])} {random.choice(['ns.example.', 'NS.example.'])}",
    "NS": lambda: random.choice(["ns.test.", "ns2.test.", "NS2.test."]),
    "CNAME": lambda: random.choice(["x.example.", "y.example."]),
    "PTR": lambda: f"p{random.randrange(2)}.example.",
    "SRV": lambda: f"1 2 3 s{random.randrange(2)}.example.",
}

# Name servers outside the zone, so that BIND asks for no address of theirs.
ZONE = """$ORIGIN example.
@ 3600 SOA ns.test. hostmaster 1 7200 3600 1209600 300
@ 300 NS ns.test.
ns 300 A 192.0.2.53
www 300 A 192.0.2.1
"""


def name():
    return random.choice(NAMES if random.random() < 0.9 else [OUTSIDE])


def data():
    kind = random.choice(["A", "A", *KINDS])
    return kind, KINDS[kind]()


def ask(update):
    sort, owner, (kind, text) = random.randrange(6), name(), data()
    if sort == 0:
        update.present(owner)
    elif sort == 1:
        update.absent(owner)
    elif sort == 2:
        update.present(owner, kind)
    elif sort == 3:
        update.absent(owner, kind)
    else:
        update.present(owner, kind, text)


def change(update, owner):
    sort, (kind, text) = random.randrange(8), data()
    if sort < 4:
        update.add(owner, random.choice([0, 60, 300]), kind, text)
    elif sort == 4:
        update.delete(owner, kind, text)
    elif sort == 5:
        update.delete(owner, kind)
    elif sort == 6:
        update.delete(owner)
    else:
        update.replace(owner, 60, kind, text)


def update():
    """Changes outside the zone only where nothing is asked: BIND looks for them before the prerequisites, which RFC 2136
    has first."""
    made = dns.update.UpdateMessage("example.")
    for _ in range(random.choice([0, 0, 0, 1, 1, 2])):
        ask(made)
    for _ in range(random.randrange(5)):
        owner = name()
        change(made, "www.example." if owner == OUTSIDE and made.prerequisite else owner)
    return made


def fetched(server):
    """The zone that a server has (RFC 5936)."""
    found = dns.query.xfr(server[0], "example.", port=server[1], relativize=False)
    return dns.zone.from_xfr(found, relativize=False, check_origin=False)


def records(zone):
    return [(owner, it.ttl, it.rdtype, data) for owner, node in zone.nodes.items() for it in node.rdatasets for data in it]


def text(zone):
    """As zone text."""
    lines = (f"{owner} {ttl} {dns.rdatatype.to_text(kind)} {data.to_text()}\n" for owner, ttl, kind, data in records(zone))
    return "".join(lines)


def said(owner, kind, data):
    return owner.canonicalize().to_text(), kind, data.to_digestable()


def meaning(zone):
    """The data under each owner and type, without the SOA, whose serial BIND raises by itself."""
    return {said(owner, kind, data) for owner, _, kind, data in records(zone) if kind != dns.rdatatype.SOA}


def printed(lines):
    """The same of a zone that `dnsmsg apply` printed."""
    found = set()
    for owner, _, _, kind, items in (it.split(" ", 4) for it in lines):
        if kind != "SOA":
            kind = dns.rdatatype.from_text(kind)
            data = dns.rdata.from_text(dns.rdataclass.IN, kind, items, origin=dns.name.root, relativize=False)
            found.add(said(dns.name.from_text(owner), kind, data))
    return found
