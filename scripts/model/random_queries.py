"""Random queries of a zone `example.`, and messages that are nearly such."""
import random

from data import A, AAAA, ANY, ANY_CLASS, CNAME, IN, MX, NS, SOA, SRV, TXT, Data
from messages import UPDATE, Edns, Message, Question
from names import Name, parse_name
from random_messages import chance, damaged
from random_updates import CHAOS, ORIGIN, OUTSIDE, OWNERS
from writing import written

TYPES = [A, A, A, AAAA, NS, CNAME, SOA, MX, TXT, SRV, ANY, 43, 99]
ODD_TYPES = [0, 41, 128, 250, 252, 254]


def name():
    if chance(0.05):
        return random.choice(OUTSIDE)
    under = random.choice(OWNERS)
    labels = random.choices([b"a", b"b", b"www", b"WWW", b"*", b"x"], k=random.choice([0, 0, 1, 1, 2]))
    return Name((*labels, *under.labels), True) if under.absolute else parse_name("www", ORIGIN)


def query():
    """The bytes of a query, or nearly of one, and what it came by: so many bytes in a datagram, or a stream."""
    flags = {it for it in ("RD", "CD", "AD", "TC", "AA") if chance(0.2)}
    made = Message(random.randrange(65536), chance(0.02), random.choice([2, 4, UPDATE, 9]) if chance(0.05) else 0, flags, 0)
    dns_class = random.choice([CHAOS, ANY_CLASS]) if chance(0.03) else IN
    asked = Question(name(), random.choice(ODD_TYPES if chance(0.05) else TYPES), dns_class, chance(0.02))
    made.questions = [asked] * (random.choice([0, 2]) if chance(0.04) else 1)
    if chance(0.4):
        payload = random.choice([0, 512, 513, 600, 1232, 4096, 65535])
        made.edns = Edns(0, 1 if chance(0.1) else 0, chance(0.5), 0, payload, ((10, b"cookie"),) if chance(0.2) else ())
    data = written(made, 65535)
    data = damaged(data) if chance(0.1) else data
    return data, random.choice([None, 0, 512, 600, 1232, 65535])
