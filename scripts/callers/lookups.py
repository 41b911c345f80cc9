"""Whether `lookup.py` believes only what answers its questions.

It is asked of a server that is told beforehand what to send: forged answers of each kind before the true one, and answers
that lie, loop, fail, are cut or don't come. What is printed, and how often the server was asked, has to be what stands
here.
"""
import socket
import struct
import subprocess
import sys
import threading

from common import ROOT

LOOKUP = f"{ROOT}/bindings/programs/lookup.py"
A, CNAME, SOA, IN = 1, 5, 6, 1
QR, TC, QUESTION_AT = 0x8180, 0x0200, 12
NX_DOMAIN, SERV_FAIL = 3, 2


def wire(name):
    return b"".join(bytes([len(label)]) + label.encode() for label in name.split(".")) + b"\0"


def record(owner, kind, ttl, data):
    return wire(owner) + struct.pack("!HHIH", kind, IN, ttl, len(data)) + data


def address(owner, last, ttl=60):
    return record(owner, A, ttl, bytes([192, 0, 2, last]))


def alias(owner, target, ttl=60):
    return record(owner, CNAME, ttl, wire(target))


def absence(seconds):
    numbers = struct.pack("!IIIII", 1, 2, 3, 4, seconds)
    return record("example", SOA, 1 << 30, wire("ns.example") + wire("host.example") + numbers)


def message(id_, flags, question, answers=(), authorities=(), additionals=()):
    counts = 1 if question else 0, len(answers), len(authorities), len(additionals)
    return struct.pack("!HHHHHH", id_, flags, *counts) + question + b"".join([*answers, *authorities, *additionals])


# Each name: what is sent of the id and the question of a query for it.
ANSWERS = {
    "chain.example": lambda i, q: message(i, QR, q, [
        alias("chain.example", "next.example"), address("bank.example", 66), address("end.example", 2),
        alias("next.example", "END.example")], additionals=[address("bank.example", 66)]),
    "bank.example": lambda i, q: message(i, QR, q, [address("bank.example", 7)]),
    "gone.example": lambda i, q: message(i, QR | NX_DOMAIN, q, authorities=[absence(1 << 30)]),
    "empty.example": lambda i, q: message(i, QR, q, authorities=[absence(60)]),
    "hung.example": lambda i, q: message(i, QR | NX_DOMAIN, q, [alias("hung.example", "x.example")], [absence(60)]),
    "zero.example": lambda i, q: message(i, QR, q, [address("zero.example", 3, 1 << 31)]),
    "fail.example": lambda i, q: message(i, QR | SERV_FAIL, q),
    "loop.example": lambda i, q: message(i, QR, q, [alias("loop.example", "l.example"), alias("l.example", "loop.example")]),
    "cut.example": lambda i, q: message(i, QR | TC, q),
}

# What is asked, and what is printed; a name that stands twice is asked for twice.
ROWS = [
    ("plain.example", "plain.example. 192.0.2.1"),
    ("PLAIN.example.", "plain.example. 192.0.2.1"),
    ("chain.example A", "chain.example. next.example.\nnext.example. END.example.\nend.example. 192.0.2.2"),
    ("bank.example", "bank.example. 192.0.2.7"),
    ("gone.example", "gone.example: NXDomain"),
    ("gone.example", "gone.example: NXDomain"),
    ("empty.example TYPE1", "empty.example TYPE1: no data"),
    ("hung.example", "hung.example. x.example.\nhung.example: NXDomain"),
    ("zero.example", "zero.example. 192.0.2.3"),
    ("zero.example", "zero.example. 192.0.2.3"),
    ("fail.example", "fail.example: ServFail"),
    ("fail.example", "fail.example: ServFail"),
    ("loop.example", "loop.example: aliases that come to no end"),
    ("cut.example", "cut.example. 192.0.2.4"),
    ("silent.example", "silent.example: no answer"),
    ("a..example", "a..example: 23: items that are no data, name or TTL"),
    ("www.example NOTYPE", "www.example NOTYPE: no type"),
]
ASKED = {"plain.example": 1, "chain.example": 1, "bank.example": 1, "gone.example": 1, "empty.example": 1, "hung.example": 1,
         "zero.example": 2, "fail.example": 2, "loop.example": 1, "cut.example": 1, "silent.example": 2}


def forged(id_, question):
    """Messages that are no answers to the query of this id and question: each is passed over."""
    lie = [address("plain.example", 66)]
    other = wire("other.example") + question[-4:]
    yield message(id_ ^ 1, QR, question, lie)
    yield message(id_, 0x0100, question, lie)
    yield message(id_, QR | 0x0800, question, lie)
    yield message(id_, QR, other, lie)
    yield message(id_, QR, question[:-4] + struct.pack("!HH", 28, IN), lie)
    yield message(id_, QR, question[:-2] + struct.pack("!H", 3), lie)
    yield message(id_, QR, b"", lie)
    yield struct.pack("!HHHHHH", id_, QR, 2, 1, 0, 0) + question + question + lie[0]
    yield message(id_, QR, question, lie)[:-1]
    yield b""


class Server:
    """Answers as it is told, and counts who asked for what."""

    def __init__(self):
        self.udp, self.tcp = (socket.socket(socket.AF_INET, kind) for kind in (socket.SOCK_DGRAM, socket.SOCK_STREAM))
        self.udp.bind(("127.0.0.1", 0))
        self.port = self.udp.getsockname()[1]
        self.tcp.bind(("127.0.0.1", self.port))
        self.tcp.listen()
        self.asked, self.ids, self.ports = {}, set(), set()
        for serve in (self.datagrams, self.streams):
            threading.Thread(target=serve, daemon=True).start()

    def datagrams(self):
        elsewhere = socket.socket(socket.AF_INET, socket.SOCK_DGRAM)
        while True:
            query, asker = self.udp.recvfrom(4096)
            id_, question, name = split(query)
            self.asked[name] = self.asked.get(name, 0) + 1
            self.ids.add(id_)
            self.ports.add(asker[1])
            if name == "plain.example":
                elsewhere.sendto(message(id_, QR, question, [address(name, 66)]), asker)
                for lie in forged(id_, question):
                    self.udp.sendto(lie, asker)
                self.udp.sendto(message(id_, QR, question, [address(name, 1)]), asker)
            elif name in ANSWERS:
                self.udp.sendto(ANSWERS[name](id_, question), asker)

    def streams(self):
        while True:
            sock, _ = self.tcp.accept()
            id_, question, name = split(sock.recv(4096)[2:])
            whole = message(id_, QR, question, [address(name, 4)])
            framed = struct.pack("!H", len(whole)) + whole
            for at in range(len(framed)):
                sock.send(framed[at:at + 1])
            sock.close()


def split(query):
    """The id of a query, its question, and the name that it asks for, in lower case."""
    labels, at = [], QUESTION_AT
    while query[at]:
        labels.append(query[at + 1:at + 1 + query[at]].decode().lower())
        at += 1 + query[at]
    return struct.unpack("!H", query[:2])[0], query[QUESTION_AT:at + 5], ".".join(labels)


def try_lookup():
    server = Server()
    words = [sys.executable, LOOKUP, "127.0.0.1", str(server.port), "--timeout", "0.5", "--tries", "2"]
    ran = subprocess.run(words, input="".join(f"{asked}\n" for asked, _ in ROWS), capture_output=True, text=True, check=False)
    wanted = "".join(f"{printed}\n" for _, printed in ROWS)
    if ran.stdout != wanted or ran.returncode:
        sys.exit(f"try_callers: lookup printed\n{ran.stdout}{ran.stderr}and not\n{wanted}")
    if server.asked != ASKED:
        sys.exit(f"try_callers: the server was asked {server.asked} times and not {ASKED}")
    asked = sum(server.asked.values())
    if len(server.ids) < asked - 1 or len(server.ports) < asked - 1:
        sys.exit(f"try_callers: {asked} questions had {len(server.ids)} ids and {len(server.ports)} ports")
    print(f"lookup: {len(ROWS)} questions, as they should be answered")
