"""Random messages of dnspython's, and what it makes of bytes.

What dnspython does otherwise than RFC 1035 is put right first (`name_end`), and data that it knows beyond is left as it is
(`data_class`).
"""
import contextlib
import random

import dns.edns
import dns.exception
import dns.message
import dns.name
import dns.rdata
import dns.rdataclass
import dns.rdatatype
import dns.rrset
import dns.wire
from dns.rdtypes.ANY.CNAME import CNAME
from dns.rdtypes.ANY.MX import MX
from dns.rdtypes.ANY.NS import NS
from dns.rdtypes.ANY.PTR import PTR
from dns.rdtypes.ANY.SOA import SOA
from dns.rdtypes.ANY.TXT import TXT
from dns.rdtypes.IN.A import A
from dns.rdtypes.IN.AAAA import AAAA
from dns.rdtypes.IN.SRV import SRV

LABELS = [b"a", b"b", b"www", b"WWW", b"mail", b"example", b"Example", b"x" * 63, b"_sip", b"_tcp", b"h-1", b"1"]
LABELS += [b"\x00\xff", b"a.b", b"two words", b'"q', b";", b"(", b"\\", b"@", b"$", b"*"]
ENDS = [[], [b"example", b"com"], [b"EXAMPLE", b"com"], [b"net"]]
FLAGS = [0x8000, 0x0400, 0x0100, 0x0080, 0x0020, 0x0010]


def number(bits):
    return random.randrange(1 << bits)


def some_bytes(most):
    return bytes(number(8) for _ in range(random.randrange(most)))


def name():
    labels = random.choices(LABELS, k=random.choice([0, 1, 2, 2, 3, 3, 4])) + random.choice(ENDS)
    while sum(1 + len(label) for label in labels) + 1 > 255:
        labels.pop(0)
    return dns.name.Name(labels + [b""])


def address6():
    """Often with runs of zeros."""
    return ":".join(f"{random.choice([0, number(16)]):x}" for _ in range(8))


KINDS = {
    "A": lambda made: A(*made, ".".join(str(number(8)) for _ in range(4))),
    "AAAA": lambda made: AAAA(*made, address6()),
    "NS": lambda made: NS(*made, name()),
    "CNAME": lambda made: CNAME(*made, name()),
    "PTR": lambda made: PTR(*made, name()),
    "MX": lambda made: MX(*made, number(16), name()),
    "SOA": lambda made: SOA(*made, name(), name(), number(32), *(number(31) for _ in range(4))),
    "SRV": lambda made: SRV(*made, number(16), number(16), number(16), name()),
    "TXT": lambda made: TXT(*made, [some_bytes(30) for _ in range(random.randrange(1, 4))]),
}


def record():
    kind = random.choice(list(KINDS))
    data = KINDS[kind]((dns.rdataclass.IN, dns.rdatatype.from_text(kind)))
    found = dns.rrset.RRset(name(), dns.rdataclass.IN, data.rdtype)
    found.add(data, number(31))
    return found


def message():
    made = dns.message.Message(id=number(16))
    made.flags = sum(random.choice([0, flag]) for flag in FLAGS)
    for _ in range(random.choice([0, 1, 1, 1, 2])):
        made.question.append(dns.rrset.RRset(name(), dns.rdataclass.IN, random.choice([1, 2, 28, 65, 255, 257])))
    for section in (made.answer, made.authority, made.additional):
        section.extend(record() for _ in range(random.choice([0, 0, 1, 2, 3])))
    if random.random() < 0.4:
        options = [dns.edns.GenericOption(65001 + number(2), some_bytes(10)) for _ in range(random.randrange(3))]
        made.use_edns(0, random.choice([0, 0x8000]), random.randrange(512, 65536), options=options)
    return made.to_wire(max_size=65535)


def changed(wire):
    """The same with other bytes here and there after the flags, or without its end; without a TSIG, which wants a key."""
    other = bytearray(wire)
    for _ in range(random.choice([1, 1, 1, 2, 3])):
        other[random.randrange(4, len(other))] = random.choice([0, 0x3F, 0x40, 0xC0, 0xFF, random.randrange(250)])
    return bytes(other[: random.randrange(12, len(other) + 1)] if random.random() < 0.1 else other)


def data_class(of_class, kind, *further, known=dns.rdata.get_rdata_class):
    """Data of a type has one form in every class, and is opaque where its type is none of these."""
    return known(dns.rdataclass.IN, kind) if dns.rdatatype.to_text(kind) in [*KINDS, "OPT"] else dns.rdata.GenericRdata


@contextlib.contextmanager
def name_end(parser):
    """A name ends after its first pointer, even where the bytes that this leads to run on beyond it or beyond the data."""
    seek, end, after = parser.seek, parser.end, []

    def follow(place):
        after.append(parser.current)
        parser.end = len(parser.wire)
        seek(place)

    parser.seek = follow
    try:
        yield
    finally:
        parser.seek, parser.end = seek, end
        parser.current = (after or [parser.current])[0]


dns.rdata.get_rdata_class = data_class
dns.wire.Parser.restore_furthest = name_end


def read(wire):
    """The message that the bytes begin with, or nothing."""
    try:
        return dns.message.from_wire(wire, one_rr_per_rrset=True, ignore_trailing=True)
    except dns.exception.DNSException:
        return None


def is_asked(read):
    """Whether it is as this library asks beyond: each record has data, none is of type 0, a SIG stands in additionals alone."""
    before = [*read.answer, *read.authority]
    full = all(it.rdtype != 0 and data.to_wire() for it in [*before, *read.additional] for data in it)
    return full and all(it.rdtype != dns.rdatatype.SIG for it in before)


def room(read):
    """The bytes that header and questions take at most, without compression."""
    return 12 + sum(len(it.name.to_wire()) + 4 for it in read.question)


def records(section):
    """Names in the case of their letters, data by what it says."""
    return [(str(it.name), it.rdclass, it.rdtype, it.ttl, [data.to_text() for data in it]) for it in section]


def meaning(read):
    """What a message says: the head, and the four sections. A payload below 512 is 512 (RFC 6891, 6.2.3)."""
    options = sorted((int(it.otype), it.to_wire()) for it in read.options)
    head = (read.id, read.flags & ~0x0200, read.edns, read.ednsflags & 0xFFFFFF, max(read.payload, 512), options)
    questions = [(str(it.name), it.rdclass, it.rdtype) for it in read.question]
    return head, [questions, records(read.answer), records(read.authority), records(read.additional)]
