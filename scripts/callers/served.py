"""A name server of bindings/programs on an address of loopback, and what asks it."""
import secrets
import signal
import socket
import struct
import subprocess
import sys
import time

from common import ROOT

sys.path[:0] = [f"{ROOT}/bindings/python", f"{ROOT}/bindings/programs"]
import fuzsbanel  # noqa: E402

PYTHON = [sys.executable, f"{ROOT}/bindings/programs/nameserver.py"]
# the server that is tried, where no other is named
TRIED = list(PYTHON)
HOST, ORIGIN = "127.0.0.1", "example."
A, SOA, MX, TXT, OPT, TSIG, IXFR, AXFR, ANY = 1, 6, 15, 16, 41, 250, 251, 252, 255
NO_ERROR, FORM_ERR, SERV_FAIL, NX_DOMAIN, NOT_IMP, REFUSED, YX_RRSET, NOT_AUTH = 0, 1, 2, 3, 4, 5, 7, 9
LIMIT = 10
# before the words of a program that is killed with this one, however that ends
DYING = ["setpriv", "--pdeathsig", "KILL"]
ZONE = """$TTL 300
@ SOA ns hostmaster 1 7200 3600 1209600 60
@ NS ns
ns A 192.0.2.1
www A 192.0.2.3
www A 192.0.2.4
www TXT "text"
*.wild A 192.0.2.9
alias CNAME www
""" + "".join(f"big TXT {i:03}{'t' * 200}\n" for i in range(40))


def fail(words):
    sys.exit(f"try_callers: {words}")


def want(is_so, words):
    if not is_so:
        fail(words)


def free_port():
    """A port below those that the system gives to clients, which nothing listens at."""
    for _ in range(1000):
        port = 20000 + secrets.randbelow(10000)
        with socket.socket() as stream, socket.socket(socket.AF_INET, socket.SOCK_DGRAM) as datagrams:
            try:
                stream.bind((HOST, port))
                datagrams.bind((HOST, port))
                return port
            except OSError:
                pass
    return fail("no port is free")


class Served:
    """A server of a zone in a folder, ended at the end of its block: cleanly, unless it has ended or was killed before."""

    def __init__(self, folder, *words, before=(), text=ZONE, program=None):
        self.zone, self.journal, self.said = f"{folder}/zone", f"{folder}/journal", f"{folder}/said"
        with open(self.zone, "w", encoding="utf-8") as file:
            file.write(text)
        command = [*DYING, *before, *(program or TRIED), self.zone, ORIGIN, HOST, str(free_port()), self.journal]
        with open(self.said, "w", encoding="utf-8") as said:
            self.process = subprocess.Popen([*command, *words], stdin=subprocess.DEVNULL, stdout=said, stderr=said)
        self.port = self._port()

    def words(self):
        with open(self.said, encoding="utf-8") as file:
            return file.read()

    def _port(self):
        """The port that it says it is at; None if it ends before."""
        end = time.monotonic() + LIMIT
        while time.monotonic() < end:
            last = self.words().rpartition(" port ")[2]
            if last.endswith("\n") and last.strip().isdigit():
                return int(last)
            if self.process.poll() is not None:
                return None
            time.sleep(0.005)
        self.process.kill()
        return fail("a server doesn't start")

    def __enter__(self):
        return self

    def __exit__(self, *error):
        if self.process.poll() is None:
            self.process.terminate()
            try:
                self.process.wait(LIMIT)
            except subprocess.TimeoutExpired:
                self.process.kill()
                self.process.wait()
            want(error[0] or self.process.returncode == 0, f"a server ended with {self.process.returncode}: {self.words()}")

    def kill(self):
        self.process.send_signal(signal.SIGKILL)
        self.process.wait()

    def ended(self):
        """The status with which it ends by itself."""
        return self.process.wait(LIMIT)

    def connected(self, source=HOST, seconds=LIMIT):
        return socket.create_connection((HOST, self.port), seconds, (source, 0))

    def by_stream(self, *messages, source=HOST):
        """What one connection has for each of these messages."""
        with self.connected(source) as sock:
            sock.sendall(b"".join(map(framed, messages)))
            return [taken(sock) for _ in messages]

    def by_datagram(self, message, seconds=2):
        """What comes for a datagram, if anything."""
        with socket.socket(socket.AF_INET, socket.SOCK_DGRAM) as sock:
            sock.settimeout(seconds)
            sock.connect((HOST, self.port))
            sock.send(message)
            try:
                return sock.recv(65535)
            except OSError:
                return None

    def code(self, message):
        """The code of the answer by TCP, if there is one."""
        [answer] = self.by_stream(message)
        return answer and fuzsbanel.header(answer).rcode

    def has(self, name, record_type=A):
        """How many answers there are for a name."""
        return fuzsbanel.header(self.by_stream(query(name, record_type))[0]).answers

    def serial(self):
        [soa] = [it for it in fuzsbanel.records(self.by_stream(query(ORIGIN, SOA))[0]) if it.section == 1]
        return struct.unpack("!I", soa.data[-20:-16])[0]

    def dig(self, *words):
        return run(["dig", f"@{HOST}", "-p", str(self.port), "+tries=1", "+time=3", *words])[1]

    def nsupdate(self, *lines):
        """The status of an update by TCP of these lines, and what is said."""
        given = "".join(f"{line}\n" for line in (f"server {HOST} {self.port}", f"zone {ORIGIN}", *lines, "send"))
        return run(["nsupdate", "-v", "-t", "5"], given)


def run(command, given=""):
    ran = subprocess.run(command, input=given, capture_output=True, text=True, check=False, timeout=6 * LIMIT)
    return ran.returncode, ran.stdout + ran.stderr


def framed(message):
    return struct.pack("!H", len(message)) + message


def taken(sock):
    """The next message of a connection, or None at its end."""
    received = b""
    while len(received) < 2 or len(received) < 2 + struct.unpack("!H", received[:2])[0]:
        want = 2 - len(received) if len(received) < 2 else 2 + struct.unpack("!H", received[:2])[0] - len(received)
        try:
            piece = sock.recv(want)
        except ConnectionError:
            return None
        if not piece:
            return None
        received += piece
    return received[2:]


def transferred(sock):
    """The records of a transfer, by as many messages as it takes, and how many those are."""
    records, count = [], 0
    while not records or records[-1] != records[0]:
        message = taken(sock)
        want(message is not None and fuzsbanel.header(message).rcode == 0, "a transfer breaks off")
        records += [(fuzsbanel.name(message, it.name), it.record_type, it.ttl, fuzsbanel.data_text(message, it.name))
                    for it in fuzsbanel.records(message) if it.section == 1]
        count += 1
    return records, count


def query(name, record_type=A, payload=0):
    return fuzsbanel.build_query(7, name, record_type, 1, False, payload)


def added(name, last=1):
    """The update that adds an address."""
    return fuzsbanel.append(9, ORIGIN, f"{name} 300 A 192.0.2.{last}")


def unsigned(message):
    """The message with a TSIG record that nobody made, the last of it."""
    data = b"\x0bhmac-sha256\0" + struct.pack("!HIHHHHH", 0, 0, 300, 0, 0, 0, 0)
    count = struct.unpack("!H", message[10:12])[0] + 1
    record = b"\1k\0" + struct.pack("!HHIH", TSIG, 255, 0, len(data)) + data
    return message[:10] + struct.pack("!H", count) + message[12:] + record
