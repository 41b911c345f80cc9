"""Random bytes of messages: most are well made, with pointers and data of every kind, and some of them lie."""
import random

from data import A, AAAA, ANAME, CNAME, MX, NS, OPT, PTR, SIG, SOA, SRV, TSIG, TXT, TYPES

LABELS = [b"a", b"b", b"A", b"www", b"WWW", b"x" * 63, b"y" * 62, b"z" * 61, b"\0\xff", b"a.b", b"*", b"_tcp", b"@", b"\\"]
LABELS += [b'"', b"$;()", b" "]
KINDS = [*TYPES, 11, 99, 128, 253, 254, 256, 65535]
GOOD = [it for it in KINDS if it not in (0, OPT, SIG, TSIG)]
CLASSES = [1, 1, 3, 254, 255, 0x8001, 0, 511, 512, 1232, 32768, 65535]


def chance(part):
    return random.random() < part


def some_bytes(most):
    return random.randbytes(random.randrange(most))


class Maker:
    """A message that is made, the places of its labels, which pointers lead to, and names that stand in it."""

    def __init__(self):
        self.data, self.places, self.names = bytearray(12), [], []

    def number(self, number, size):
        self.data += number.to_bytes(size, "big")

    def any_number(self, size):
        self.data += random.randbytes(size)

    def mark(self):
        if len(self.data) < 16384:
            self.places.append(len(self.data))

    def name(self):
        before = list(self.places)
        again = self.names and chance(0.15 if len(self.names) > 1 else 0.9)
        count = random.choice([0, 1, 1, 2, 2, 3, 4, 5])
        labels = random.choice(self.names) if again else random.choices(LABELS, k=count)
        points = before and not again and chance(0.6)
        for label in labels[:2] if points else labels:
            self.mark()
            self.data += bytes([len(label)]) + label
        if not points:
            if not again:
                self.names.append(labels)
            self.data.append(0)
            return
        target = random.choice(before[-12:] if chance(0.7) else before)
        if chance(0.04):
            target = random.choice([0, 2, 4, 11, 16383, len(self.data), len(self.data) + 2]) % 16384
        else:
            self.mark()
        self.number(0xC000 + target, 2)

    def fields(self, kind):
        if chance(0.04):
            self.data += bytes(random.choices([0, 1, 3, 63, 64, 192, 255], k=random.randrange(8)))
        elif kind in (A, AAAA):
            self.data += bytes(random.choices([0, 0, random.randrange(256)], k=4 if kind == A else 16))
        elif kind in (NS, CNAME, PTR, ANAME):
            self.name()
        elif kind in (MX, SRV):
            self.any_number(2 if kind == MX else 6)
            self.name()
        elif kind == SOA:
            self.name()
            self.name()
            self.any_number(20)
        elif kind == TXT:
            for _ in range(random.randrange(1, 4)):
                string = some_bytes(random.choice([1, 3, 40, 256]))
                self.data += bytes([len(string)]) + string
        elif kind == OPT:
            for _ in range(random.randrange(3)):
                option = some_bytes(6)
                self.any_number(2)
                self.number(len(option), 2)
                self.data += option
        else:
            self.data += random.randbytes(random.randrange(1, 9))

    def record(self, kind):
        if kind == OPT and chance(0.95):
            self.data.append(0)
        else:
            self.name()
        self.number(kind, 2)
        self.number(random.choice(CLASSES), 2)
        self.number(random.choice([0, 1, 60, 0xFFFFFFFF, 0x01028003, random.randrange(1 << 32)]), 4)
        self.number(0, 2)
        place = len(self.data)
        if not chance(0.03):
            self.fields(kind)
        length = len(self.data) - place
        if chance(0.02):
            length = max(0, length + random.choice([-1, 1, 300]))
        self.data[place - 2 : place] = length.to_bytes(2, "big")

    def filler(self):
        """A record of so many bytes that what stands after it is past what a pointer can name, or nearly so."""
        end = 16384 + random.choice([random.randrange(-200, 100), -1, 0, 0])
        self.data += b"\0\0\x0a\0\1\0\0\0\0"
        length = end - len(self.data) - 2
        self.number(length, 2)
        self.data += random.randbytes(length)
        # a name that stands alone here is mostly spelled again, which shows whether its place was kept
        self.names = [[random.choice(LABELS)]]


def kind_in(section, is_last):
    if section == 2 and chance(0.15):
        return OPT
    if section == 2 and chance(0.2 if is_last else 0.04):
        return TSIG
    return random.choice(KINDS if chance(0.02) else GOOD)


def message():
    made = Maker()
    counts = [random.choice([0, 1, 1, 1, 2, 3])]
    for _ in range(counts[0]):
        made.name()
        made.number(random.choice(KINDS), 2)
        made.number(random.choice(CLASSES), 2)
    for section in range(3):
        counts.append(random.choice([0, 0, 1, 1, 2, 3, 5]))
        for i in range(counts[-1]):
            if section == 0 and i == 0 and chance(0.15):
                made.filler()
            else:
                made.record(kind_in(section, i + 1 == counts[-1]))
    if chance(0.02):
        counts[random.randrange(4)] += random.choice([1, 65000])
    opcode = random.choice([0, 0, 0, 1, 2, 4, 5, 5, 15])
    flags = bytes([random.choice([0, 0x80]) | opcode << 3 | random.randrange(8), random.randrange(256)])
    made.data[:12] = random.randbytes(2) + flags + b"".join(it.to_bytes(2, "big") for it in counts)
    return bytes(made.data) + (some_bytes(5) if chance(0.1) else b"")


def damaged(data):
    """The same with bytes changed or missing."""
    data = bytearray(data)
    if chance(0.5):
        for _ in range(random.choice([1, 1, 2, 4])):
            data[random.randrange(len(data))] = random.choice([0, 1, 63, 64, 128, 191, 192, 255, random.randrange(256)])
    elif chance(0.5):
        del data[random.randrange(len(data)) :]
    else:
        at = random.randrange(len(data))
        del data[at : at + random.choice([1, 2])]
    return bytes(data)
