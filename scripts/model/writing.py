"""Messages, written under a limit (RFC 1035, 4.1.4; RFC 6891, 6)."""
from data import ANAME, FIELDS, OPT, SRV, TXT, Data
from messages import FLAGS, Record
from names import ROOT, Refused

FARTHEST = 16384


class Full(Exception):
    """A byte would pass the limit."""


class Writer:
    """Bytes up to a limit, and where each suffix was written by labels."""

    def __init__(self, limit):
        self.limit, self.data, self.suffixes = limit, bytearray(), {}

    def put(self, data):
        if len(self.data) + len(data) > self.limit:
            raise Full
        self.data += data

    def number(self, number, size):
        self.put(number.to_bytes(size, "big"))

    def name(self, name):
        for i, label in enumerate(name.labels):
            suffix = name.labels[i:]
            if suffix in self.suffixes:
                self.number(0xC000 | self.suffixes[suffix], 2)
                return
            if len(self.data) < FARTHEST:
                self.suffixes[suffix] = len(self.data)
            self.put(bytes([len(label)]) + label)
        self.put(b"\0")

    def plain_name(self, name):
        self.put(b"".join(bytes([len(label)]) + label for label in name.labels) + b"\0")

    def question(self, question):
        self.name(question.name)
        self.number(question.type, 2)
        self.number(question.dns_class | 0x8000 * question.unicast, 2)

    def record(self, record):
        self.name(record.name)
        self.number(record.data.type, 2)
        self.number(record.dns_class | 0x8000 * record.flush, 2)
        self.number(record.ttl, 4)
        self.number(0, 2)
        place = len(self.data)
        self.fields(record.data)
        self.data[place - 2 : place] = (len(self.data) - place).to_bytes(2, "big")

    def fields(self, data):
        if data.type == OPT:
            for code, option in data.fields:
                self.number(code, 2)
                self.number(len(option), 2)
                self.put(option)
        elif data.type == TXT:
            for string in data.fields:
                self.number(len(string), 1)
                self.put(string)
        else:
            for form, it in zip(FIELDS.get(data.type, ["bytes"]), data.fields):
                self.field(form, it, data.type in (ANAME, SRV))

    def field(self, form, it, is_plain):
        if form == "name" and is_plain:
            self.plain_name(it)
        elif form == "name":
            self.name(it)
        elif isinstance(it, int):
            self.number(it, int(form[1:]) // 8)
        else:
            self.put(it)

    def all(self, items, write):
        """Writes items up to the first that doesn't fit, of which nothing stays. Answers how many."""
        for count, item in enumerate(items):
            place = len(self.data)
            try:
                write(item)
            except Full:
                del self.data[place:]
                self.suffixes = {suffix: at for suffix, at in self.suffixes.items() if at < place}
                return count
        return len(items)


def header(message, counts, is_cut):
    flags = message.flags | ({"TC"} if is_cut else set())
    octets = {2: 0x80 * message.response | message.opcode << 3, 3: message.code & 15}
    for it in flags:
        at, bit = FLAGS[it]
        octets[at] |= bit
    return message.id.to_bytes(2, "big") + bytes(octets.values()) + b"".join(it.to_bytes(2, "big") for it in counts)


def written(message, limit):
    """The bytes of a message under a limit: each section as far as it fits, then EDNS and the signature, if they fit."""
    out = Writer(limit)
    if limit < 12:
        raise Refused(1)
    out.put(bytes(12))
    if out.all(message.questions, out.question) < len(message.questions):
        raise Refused(2)
    counts = [out.all(records, out.record) for records in message.sections]
    is_cut = counts != [len(records) for records in message.sections]
    after = [message.signature] if message.signature else []
    if message.edns:
        edns = message.edns
        ttl = message.code >> 4 << 24 | edns.version << 16 | 0x8000 * edns.dnssec_ok | edns.z
        after.insert(0, Record(ROOT, edns.payload, False, ttl, Data(OPT, edns.options)))
    for record in after:
        fits = out.all([record], out.record)
        counts[2] += fits
        is_cut |= not fits
    return header(message, [len(message.questions), *counts], is_cut) + bytes(out.data[12:])
