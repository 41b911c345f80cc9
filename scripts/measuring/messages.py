"""Messages to be measured: ordinary ones, pointers that chain, and owners that share nothing."""
import struct

# a type whose data is any bytes (RFC 1035, 3.3.10)
NULL = 10


def name(text, at=None, places=None):
    """A name by labels, its first suffix that `places` knows as a pointer; `places` takes in the others."""
    wire, labels = b"", [label for label in text.split(".") if label]
    while labels:
        suffix = ".".join(labels)
        if places is not None and suffix in places:
            return wire + struct.pack(">H", 0xC000 + places[suffix])
        if places is not None and at + len(wire) < 16384:
            places[suffix] = at + len(wire)
        label = labels.pop(0).encode()
        wire += bytes([len(label)]) + label
    return wire + b"\0"


class Writer:
    """A message that grows, with compressed owners."""

    def __init__(self, flags):
        self.body, self.flags, self.counts, self.places = b"", flags, [0, 0, 0, 0], {}

    def at(self):
        return 12 + len(self.body)

    def question(self, owner, kind=1, dns_class=1):
        self.body += name(owner, self.at(), self.places) + struct.pack(">HH", kind, dns_class)
        self.counts[0] += 1

    def record(self, section, owner, kind, ttl, data, dns_class=1):
        """Data is bytes, or what makes them of the place where they begin."""
        self.body += name(owner, self.at(), self.places)
        made = data(self.at() + 10, self.places) if callable(data) else data
        self.body += struct.pack(">HHIH", kind, dns_class, ttl, len(made)) + made
        self.counts[section] += 1

    def bytes(self):
        return struct.pack(">HH4H", 0x1234, self.flags, *self.counts) + self.body


def named(text):
    return lambda at, places: name(text, at, places)


def address(i):
    return bytes([192, 0, 2 + i // 256, i % 256])


def small_query():
    made = Writer(0x0100)
    made.question("www.example.com")
    return made.bytes()


def edns():
    made = Writer(0x0100)
    made.question("www.example.com")
    options = [(10, bytes(8)), (8, bytes([0, 1, 24, 0, 192, 0, 2])), (3, b""), (12, bytes(32))]
    data = b"".join(struct.pack(">HH", code, len(value)) + value for code, value in options)
    made.record(3, "", 41, 0, data, 1232)
    return made.bytes()


def answer_cname():
    made = Writer(0x8180)
    made.question("www.example.com")
    made.record(1, "www.example.com", 5, 300, named("web.cdn.example.net"))
    made.record(1, "web.cdn.example.net", 1, 60, address(1))
    made.record(1, "web.cdn.example.net", 1, 60, address(2))
    return made.bytes()


def answer30():
    made = Writer(0x8180)
    made.question("example.com", 255)
    soa = lambda at, places: (
        (first := name("ns1.example.com", at, places))
        + name("hostmaster.example.com", at + len(first), places)
        + struct.pack(">5I", 2026112401, 7200, 3600, 1209600, 300)
    )
    made.record(1, "example.com", 6, 3600, soa)
    for i in range(4):
        made.record(1, "example.com", 2, 3600, named(f"ns{i + 1}.example.com"))
    for i in range(5):
        made.record(1, "example.com", 15, 3600, lambda at, places, i=i: struct.pack(">H", 10 * i) + name(f"mail{i}.example.com", at + 2, places))
    for i in range(8):
        made.record(1, "example.com", 1, 300, address(i))
    for i in range(6):
        made.record(1, "example.com", 28, 300, bytes.fromhex("20010db8") + bytes(11) + bytes([i]))
    for i in range(4):
        text = f"v=spf1 include:_spf{i}.example.com ~all".encode()
        made.record(1, "example.com", 16, 300, bytes([len(text)]) + text)
    for i in range(2):
        made.record(1, "_sip._tcp.example.com", 33, 300, struct.pack(">3H", 1, i, 5060) + name(f"sip{i}.example.com"))
    return made.bytes()


def referral():
    made = Writer(0x8000)
    made.question("www.example.com")
    hosts = [f"{letter}.gtld-servers.net" for letter in "abcdefghijklm"]
    for host in hosts:
        made.record(2, "com", 2, 172800, named(host))
    for i, host in enumerate(hosts):
        made.record(3, host, 1, 172800, address(i))
        made.record(3, host, 28, 172800, bytes.fromhex("20010503") + bytes(11) + bytes([i]))
    return made.bytes()


def txt_heavy():
    made = Writer(0x8180)
    made.question("example.com", 16)
    for i in range(20):
        made.record(1, "example.com", 16, 300, b"".join(bytes([180]) + bytes([97 + i] * 180) for _ in range(3)))
    return made.bytes()


def update():
    made = Writer(0x2800)
    made.question("example.com", 6)
    made.record(1, "host.example.com", 255, 0, b"", 255)
    made.record(1, "old.example.com", 1, 0, b"", 254)
    for i in range(6):
        made.record(2, f"host{i}.example.com", 1, 300, address(i))
    made.record(2, "gone.example.com", 255, 0, b"", 255)
    made.record(2, "host.example.com", 1, 0, address(9), 254)
    return made.bytes()


def dnssec_answer():
    made = Writer(0x8183)
    made.question("nowhere.example.com")
    made.record(2, "example.com", 6, 3600, lambda at, places: name("ns1.example.com", at, places) + name("hostmaster.example.com", None, None) + struct.pack(">5I", 1, 2, 3, 4, 5))
    for i in range(3):
        owner = "0p9mhaveqvm6t7vbl5lop2u3t2rp3to"[i:] + "abc"[:i]
        made.record(2, f"{owner}.example.com", 50, 3600, bytes([1, 0, 0, 10, 8]) + bytes(8) + bytes([20]) + bytes(20) + bytes([0, 6, 64, 1, 0, 0, 0, 3]))
        made.record(2, f"{owner}.example.com", 46, 3600, struct.pack(">HBBIIIH", 50, 8, 3, 3600, 1, 2, 3) + name("example.com") + bytes(128))
    made.record(2, "example.com", 46, 3600, struct.pack(">HBBIIIH", 6, 8, 2, 3600, 1, 2, 3) + name("example.com") + bytes(128))
    made.record(3, "", 41, 32768, b"", 1232)
    return made.bytes()


def many_questions():
    made = Writer(0x0100)
    for i in range(200):
        made.question(f"host{i:03}.sub{i % 10}.example.com")
    return made.bytes()


def questions(size, owner):
    """Questions up to a size; `owner` gives the name of the one with this number and place."""
    body, count = b"", 0
    while True:
        one = owner(count, 12 + len(body)) + b"\0\1\0\1"
        if 12 + len(body) + len(one) > size:
            return struct.pack(">HH4H", 7, 0x0100, count, 0, 0, 0) + body
        body, count = body + one, count + 1


def chained(size, letters=1):
    """Each name is a label and a pointer to the name before it, up to 240 bytes of labels; far ones point to near ones."""
    most = 240 // (1 + letters)
    near, last = [], [None]

    def owner(i, at):
        if at < 16384 and i % most == 0:
            last[0] = at
            return bytes([letters]) + b"a" * letters + b"\0"
        target = last[0] if at < 16384 else near[i % len(near)]
        last[0] = at if at < 16384 else last[0]
        if at < 16384 and i % most == most - 2:
            near.append(at)
        return bytes([letters]) + bytes([97 + i % 26]) * letters + struct.pack(">H", 0xC000 + target)

    return questions(size, owner)


def chained_8_(size):
    """The same of labels of 8 letters."""
    return chained(size, 8)


def chained_16_(size):
    """The same of labels of 16 letters."""
    return chained(size, 16)


def bare(size):
    """Each name is a pointer to the name before it, the first the root; far ones point to the last near one."""
    last = [0]

    def owner(i, at):
        target = last[0]
        last[0] = at if at < 16384 else target
        return b"\0" if i == 0 else struct.pack(">H", 0xC000 + target)

    return questions(size, owner)


def plain(size):
    """Names of 120 labels each without a pointer."""
    return questions(size, lambda i, at: b"".join(bytes([1, 97 + (i + k) % 26]) for k in range(120)) + b"\0")


def single(size):
    """Names of one label each, without a pointer."""
    return questions(size, lambda i, at: b"\1" + bytes([97 + i % 26]) + b"\0")


def pointed(size):
    """A name of 250 bytes, and then pointers to it alone."""
    long = b"".join(bytes([61]) + bytes([97 + k]) * 61 for k in range(4)) + b"\0"
    return questions(size, lambda i, at: long if i == 0 else b"\xc0\x0c")


def into_labels(size):
    """Names of 127 labels of one byte, and in the last fifth of the message pointers alone, each to another label."""
    long = b"\1\1" * 127 + b"\0"
    each = len(long) + 4

    def owner(i, at):
        if at < size * 9 // 11:
            owner.longs = i + 1
            return long
        number = i - owner.longs
        return struct.pack(">H", 0xC000 + 12 + number // 127 * each + 2 * (number % 127))

    return questions(size, owner)


def last_differs(size):
    """Names of 126 labels of one byte that differ in the last alone."""
    return questions(size, lambda i, at: b"\1a" * 125 + bytes([1, i % 256]) + b"\0")


def owners(size):
    """Names without shared ends."""
    return questions(size, lambda i, at: bytes([8]) + f"h{i:07}".encode() + bytes([8]) + f"e{i:07}".encode() + b"\0")


def siblings(size):
    """Names with one shared end."""
    return questions(size, lambda i, at: bytes([8]) + f"h{i:07}".encode() + name("example.com"))


def chain_in_data(size):
    """Data that is a chain of pointers, as long as a pointer can reach, and then records whose owner is its end."""
    record = lambda owner, data: owner + struct.pack(">HHIH", NULL, 1, 0, len(data)) + data
    start = 12 + len(record(b"\0", b""))
    chain = (16384 - start - 1) // 2
    data = b"\0" + b"".join(struct.pack(">H", 0xC000 + (start + 2 * i - 1 if i else start)) for i in range(chain))
    other = record(struct.pack(">H", 0xC000 + start + 2 * chain - 1), b"x")
    body = record(b"\0", data)
    others = (size - 1 - 12 - len(body)) // len(other)
    return struct.pack(">HH4H", 0x1234, 0x8000, 0, 1 + others, 0, 0) + body + others * other


ORDINARY = [small_query, edns, answer_cname, answer30, referral, dnssec_answer, txt_heavy, update, many_questions]
GROWING = [(chained, (16, 32, 64)), (chained_8_, (64,)), (chained_16_, (64,)), (bare, (16, 32, 64)), (plain, (16, 32, 64))]
GROWING += [(single, (16, 32, 64)), (owners, (4, 8, 16)), (siblings, (4, 8, 16))]
GROWING += [(into_labels, (64,)), (last_differs, (64,))]


# a worst case for calls that know nothing of what was read before
ALONE = [(chain_in_data, (18, 64))]


def all_messages():
    """Name, bytes and how often each is looped."""
    for make in ORDINARY:
        yield make.__name__, make(), 20
    for make, sizes in GROWING:
        for size in sizes:
            yield f"{make.__name__}{size}", make(size * 1024), 2
    for make, sizes in ALONE:
        for size in sizes:
            yield f"{make.__name__}{size}", make(size * 1024), 1
