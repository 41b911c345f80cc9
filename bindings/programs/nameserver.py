#!/usr/bin/env python3
"""Answers queries about one zone, and updates it, as its authoritative server, over UDP and TCP.

Datagrams have 1,232 bytes at most, whatever a query says, and ANY gets one set there (RFC 8482, 4.1). A connection may
carry several queries, one after the other; each message of it has ten seconds to come whole or to be taken, so has its
silence, and there are few connections for each address and in all.

Updates and transfers are taken by TCP alone, since anybody may forge where a datagram comes from, and from the addresses
that are named. No signature is checked: a message with TSIG or SIG(0) is answered NotAuth. An update is synced to the
journal before it is carried out, and answered after that; at the start those of the journal are carried out again. The
journal belongs to the zone file that it began with and those that this includes, which are read by their names as they
stand, and only grows: to begin anew, take it away when you put another file there, as the zone that a transfer brought.

The SOA's serial is raised by each update that changes anything (RFC 2136, 3.6), and not by one that adds what the zone has
already. Then, and at the start, the secondaries that are named are told by NOTIFY (RFC 1996). IXFR gets the whole zone, or its
SOA where there is nothing newer (RFC 1995, 2 and 4). All messages of a transfer are made at once: of one zone, while others
wait.

nameserver.py ZONE_FILE ORIGIN ADDRESS PORT JOURNAL
    [--update-from ADDRESS].. [--transfer-to ADDRESS].. [--notify ADDRESS[#PORT]]..
"""
import argparse
import collections
import hashlib
import ipaddress
import os
import secrets
import selectors
import signal
import socket
import struct
import sys
import time
from typing import Deque, List, Optional, Set, Tuple, Union

sys.path.insert(0, os.path.join(os.path.dirname(os.path.realpath(__file__)), "../python"))
import fuzsbanel  # noqa: E402
from journal import Journal, Stop, warn  # noqa: E402

SOA, SIG, TSIG, IXFR, AXFR, ANY = 6, 24, 250, 251, 252, 255
QUERY, STATUS, NOTIFY, UPDATE = 0, 2, 4, 5
ANSWER, AUTHORITY = 1, 2
FORM_ERR, SERV_FAIL, NOT_IMP, REFUSED, NOT_AUTH = 1, 2, 4, 5, 9
# the refusal of zone text that includes a text which isn't handed in
NO_INCLUDE = 20
# how many bytes of a datagram pass any network (RFC 9715, 3), the most of a message, and its header
PAYLOAD, MOST, HEADER = 1232, 65535, 12
# how many questions and records a message may have that is no update of one who may: the question, the SOA of IXFR, OPT and a signature
FEW = 8
# how many connections there are in all and of one address, and how many seconds a message and a silence may take
CONNECTIONS, OF_ONE_ADDRESS, SECONDS = 128, 16, 10
# how many datagrams may be answered before each connection has a message answered
DATAGRAMS = 16
# how many bytes the system may hold for a client that doesn't read
ROOM = 1 << 17
# how often a secondary is told of a change, how many seconds lie between the first two times, each later time twice as
# many, and between changes that it is told of (RFC 1996, 3.6)
TRIES, AGAIN, PAUSE = 6, 2, 1

Address = Union[ipaddress.IPv4Address, ipaddress.IPv6Address]


def address_of(source: tuple) -> Address:
    return ipaddress.ip_address(source[0].partition("%")[0])


def with_code(response: bytes, code: int) -> bytes:
    return response[:3] + bytes([response[3] & 0xF0 | code]) + response[4:]


def with_operation(message: bytes, operation: int) -> bytes:
    return message[:2] + bytes([message[2] & 0x87 | operation << 3]) + message[3:]


def bare(message: bytes) -> bytes:
    """The header of a message with counts of 0: to be answered without reading what comes after it."""
    return message[:4] + bytes(HEADER - 4)


def with_type(message: bytes, query_type: int) -> bytes:
    """The message with another type in its question, if it has one."""
    if fuzsbanel.header(message).queries != 1:
        return message
    end = fuzsbanel.query(message, 12)[1]
    return message[:end - 4] + struct.pack("!H", query_type) + message[end - 2:]


def serial_of(soa: fuzsbanel.Record) -> int:
    """The serial of an SOA, whose data ends in five numbers (RFC 1035, 3.3.13)."""
    return struct.unpack("!I", soa.data[-20:-16])[0]


def is_current(known: int, serial: int) -> bool:
    """Whether a serial that is known is this one or a greater one (RFC 1982, 3.2)."""
    return (known - serial) % (1 << 32) < 1 << 31


def text_of(path: str) -> str:
    """The text of a file, and a line's end, since a last line without one would be passed over, if it is no record."""
    with open(path, "rb") as file:
        return file.read().decode() + "\n"


def opened(path: str, origin: str) -> Tuple[fuzsbanel.Zone, List[str]]:
    """The zone of a file and of those that it includes, each read by its name as it stands; and the file's text, and the name
    and the text of each other, in the order in which they were asked for."""
    text, included = text_of(path), {}
    while True:
        try:
            return fuzsbanel.Zone(origin, text, included), [text[:-1], *(piece for it in included.items() for piece in it)]
        except fuzsbanel.Refusal as why:
            fault = why.fault
            told = f"{fault.name or path}: line {fault.line}, column {fault.column}: {fault.words}" if fault else f"{path}: {why}"
            if not fault or fault.number != NO_INCLUDE:
                raise Stop(told) from why
            name = fault.words[len("no text named "):-len(" to include")]
            try:
                included[name] = text_of(name)
            except (OSError, ValueError):
                raise Stop(told) from why


class HeldZone:
    """The zone and its journal."""

    def __init__(self, path: str, origin: str, journal: str) -> None:
        try:
            # what a query has after its header is the name in wire form, the type and the class
            self._asking = fuzsbanel.build_query(0, origin, SOA, recursion=False)
            self.name = self._asking[HEADER:-4].lower()
            self.zone, pieces = opened(path, origin)
            self.serial = self._serial()
        except (ValueError, fuzsbanel.Refusal) as why:
            raise Stop(f"{path}: {why}") from why
        self._journal = Journal(journal, hashlib.sha256(self.name + "".join(pieces).encode()).digest())
        for update, is_last in self._journal.entries():
            self._replay(update, is_last)

    def _serial(self) -> int:
        for record in fuzsbanel.records(self.zone.answer(self._asking)):
            if record.section == ANSWER:
                return serial_of(record)
        raise ValueError("the zone has no SOA")

    def _replay(self, update: bytes, is_last: bool) -> None:
        """Carries out an update of the journal. One that isn't kept may be the last alone: the server ended before it cut that
        off."""
        try:
            code, is_changed = self.zone.update(update)
        except fuzsbanel.Refusal as why:
            raise Stop(f"an update of the journal is refused: {why}") from why
        if is_changed:
            self._keep()
        elif is_last:
            self._journal.cut()
        else:
            raise Stop(f"an update of the journal changes nothing, with the code {code}: it isn't of this zone")

    def update(self, update: bytes) -> int:
        """The code of an update. With NoError it is carried out, and stands in the journal if it changed anything; with another,
        or where it finds no room or no memory, neither. So a replay comes to the same zone."""
        try:
            self._journal.append(update)
            code, is_changed = self.zone.update(update)
        except (OSError, fuzsbanel.Refusal) as why:
            self._journal.cut()
            warn(f"an update is not carried out: {why}")
            return SERV_FAIL
        if is_changed:
            self._keep()
        else:
            self._journal.cut()
        return code

    def _keep(self) -> None:
        """Keeps the entry of an update that changed the zone, and raises the serial."""
        self._journal.keep()
        try:
            self.serial = self.zone.raise_serial()
        except fuzsbanel.Refusal as why:
            raise Stop(f"the serial isn't raised: {why}") from why

    def close(self) -> None:
        self._journal.close()
        self.zone.close()


class Secondary:
    """A secondary, which is told of changes by NOTIFY until it says that it heard (RFC 1996, 3)."""

    def __init__(self, address: Address, port: int, source: Address, origin: str) -> None:
        self._origin = origin
        self._id, self._tries, self._told = 0, 0, 0.0
        self.due: Optional[float] = None
        self.sock = socket.socket(socket.AF_INET if address.version == 4 else socket.AF_INET6, socket.SOCK_DGRAM)
        # connected, so that the system hands on nothing from elsewhere
        self.sock.bind((str(source), 0))
        self.sock.connect((str(address), port))

    def tell(self) -> None:
        """Has it told of a change, at once or when the last one is some time ago."""
        self._id, self._tries = secrets.randbelow(1 << 16), 0
        self.due = max(time.monotonic(), self._told + PAUSE)

    def send(self) -> None:
        """Tells it once, and says when next."""
        self._told = time.monotonic()
        self.due = self._told + AGAIN * 2 ** self._tries if self._tries < TRIES - 1 else None
        self._tries += 1
        try:
            self.sock.send(fuzsbanel.build_notify(self._id, self._origin))
        except (OSError, fuzsbanel.Refusal):
            pass

    def hear(self) -> None:
        try:
            header = fuzsbanel.header(self.sock.recv(MOST))
        except (OSError, fuzsbanel.Refusal):
            return
        if header.response and header.opcode == NOTIFY and header.id == self._id:
            self.due = None


class Connection:
    """A connection: what came and isn't answered, and what is to be sent."""

    def __init__(self, sock: socket.socket, peer: Address) -> None:
        self.sock, self.peer, self.is_ended = sock, peer, False
        self.received = bytearray()
        self.sending: Deque[memoryview] = collections.deque()
        self._taken, self._stage, self.end = 0, (), 0.0
        self.note_progress()

    def has_message(self) -> bool:
        return len(self.received) >= 2 and len(self.received) >= 2 + struct.unpack("!H", self.received[:2])[0]

    def receive(self) -> None:
        piece = self.sock.recv(MOST)
        self.received += piece
        self.is_ended = not piece

    def take(self) -> bytes:
        """The first message of those that came whole."""
        end = 2 + struct.unpack("!H", self.received[:2])[0]
        message = bytes(self.received[2:end])
        del self.received[:end]
        self._taken += 1
        return message

    def send(self) -> None:
        sent = self.sock.send(self.sending[0])
        self.sending[0] = self.sending[0][sent:]
        if not self.sending[0]:
            self.sending.popleft()

    def note_progress(self) -> None:
        """Gives time anew where a message was taken, begun or sent: more bytes of one give it none."""
        stage = self._taken, bool(self.received), len(self.sending)
        if stage != self._stage:
            self._stage, self.end = stage, time.monotonic() + SECONDS


class Server:
    """Answers what comes, until it is told to end."""

    def __init__(self, held: HeldZone, address: Address, port: int, update_from: Set[Address],
                 transfer_to: Set[Address], secondaries: List[Secondary]) -> None:
        self._held, self._update_from, self._transfer_to = held, update_from, transfer_to
        self._secondaries = secondaries
        self._connections: Set[Connection] = set()
        self._selector, self._is_ending = selectors.DefaultSelector(), False
        family = socket.AF_INET if address.version == 4 else socket.AF_INET6
        self._udp, self._tcp = (socket.socket(family, kind) for kind in (socket.SOCK_DGRAM, socket.SOCK_STREAM))
        if family == socket.AF_INET6:
            # so that no address of IPv4 is spelled in another way than it is named
            for sock in (self._udp, self._tcp):
                sock.setsockopt(socket.IPPROTO_IPV6, socket.IPV6_V6ONLY, 1)
        self._udp.bind((str(address), port))
        self.port = self._udp.getsockname()[1]
        self._tcp.setsockopt(socket.SOL_SOCKET, socket.SO_REUSEADDR, 1)
        self._tcp.bind((str(address), self.port))
        self._tcp.listen()
        self._watch(self._udp, self._datagram)
        self._watch(self._tcp, self._accept)
        for secondary in secondaries:
            self._watch(secondary.sock, secondary.hear)
            secondary.tell()
        # a signal ends the server between two messages, and never within one
        woken, waking = socket.socketpair()
        waking.setblocking(False)
        self._watch(woken, self._be_ending)
        self._waking = waking
        signal.set_wakeup_fd(waking.fileno())
        for number in (signal.SIGTERM, signal.SIGINT):
            signal.signal(number, lambda *_: None)

    def _watch(self, sock: socket.socket, call) -> None:
        sock.setblocking(False)
        self._selector.register(sock, selectors.EVENT_READ, call)

    def _be_ending(self) -> None:
        self._is_ending = True

    def run(self) -> None:
        while not self._is_ending:
            times = [connection.end for connection in self._connections]
            times += [secondary.due for secondary in self._secondaries if secondary.due is not None]
            for key, _ in self._selector.select(max(min(times) - time.monotonic(), 0) if times else None):
                key.data()
            now = time.monotonic()
            for connection in [it for it in self._connections if it.end <= now]:
                self._close(connection)
            for secondary in self._secondaries:
                if secondary.due is not None and secondary.due <= now:
                    secondary.send()

    def _datagram(self) -> None:
        for _ in range(DATAGRAMS):
            try:
                message, source = self._udp.recvfrom(MOST)
                for response in self._responses(message, address_of(source), False):
                    self._udp.sendto(response, source)
            except BlockingIOError:
                return
            except (OSError, fuzsbanel.Refusal):
                continue

    def _accept(self) -> None:
        try:
            sock, source = self._tcp.accept()
        except OSError:
            return
        peer = address_of(source)
        of_one = sum(connection.peer == peer for connection in self._connections)
        if len(self._connections) >= CONNECTIONS or of_one >= OF_ONE_ADDRESS:
            sock.close()
            return
        sock.setsockopt(socket.SOL_SOCKET, socket.SO_SNDBUF, ROOM)
        connection = Connection(sock, peer)
        self._connections.add(connection)
        self._watch(sock, lambda: self._turn(connection))

    def _close(self, connection: Connection) -> None:
        self._connections.remove(connection)
        self._selector.unregister(connection.sock)
        connection.sock.close()

    def _turn(self, connection: Connection) -> None:
        """Takes a connection one step further: sends, or receives, and answers one message at most."""
        try:
            if connection.sending:
                connection.send()
            elif not connection.has_message():
                connection.receive()
            if not connection.sending and connection.has_message():
                responses = self._responses(connection.take(), connection.peer, True)
                connection.sending.extend(memoryview(struct.pack("!H", len(it)) + it) for it in responses)
                if not responses:
                    # what gets no answer isn't meant for a server
                    raise ConnectionError
                connection.send()
        except BlockingIOError:
            pass
        except (OSError, fuzsbanel.Refusal):
            self._close(connection)
            return
        connection.note_progress()
        has_work = bool(connection.sending) or connection.has_message()
        if connection.is_ended and not has_work:
            self._close(connection)
        else:
            self._selector.modify(connection.sock, selectors.EVENT_WRITE if has_work else selectors.EVENT_READ,
                                  lambda: self._turn(connection))

    def _responses(self, message: bytes, peer: Address, by_stream: bool) -> List[bytes]:
        """What is sent for a message: none, one, or the several of a transfer."""
        most, zone = None if by_stream else PAYLOAD, self._held.zone
        if len(message) < HEADER or (header := fuzsbanel.header(message)).response:
            return []
        is_small = header.queries + header.answers + header.authorities + header.additionals <= FEW
        is_update, is_named = header.opcode == UPDATE, by_stream and peer in self._update_from
        if not is_small and not (is_update and is_named):
            return [self._code_alone(bare(message), REFUSED if is_update else FORM_ERR)]
        try:
            items = list(fuzsbanel.walk(message))
        except fuzsbanel.Refusal:
            return [zone.answer(message, most)]
        if any(isinstance(it, fuzsbanel.Record) and it.record_type in (SIG, TSIG) for it in items):
            return [self._code_alone(message, NOT_AUTH)]
        if is_update:
            return [self._updated(message) if is_named else self._code_alone(message, REFUSED)]
        query_type = items[0].query_type if header.opcode == QUERY and header.queries == 1 else 0
        if query_type in (IXFR, AXFR):
            is_allowed = peer in self._transfer_to
            return self._transfer(message, items, by_stream) if is_allowed else [self._code_alone(message, REFUSED)]
        if query_type == ANY and not by_stream:
            return [self._one_set(message)]
        return [zone.answer(message, most)]

    def _code_alone(self, message: bytes, code: int) -> bytes:
        """The response that has a code and nothing else: what the library answers to an operation that it doesn't know, with
        the code in the place of NotImp. What it refuses for another reason, it refuses."""
        operation = message[2] >> 3 & 15
        response = self._held.zone.answer(with_operation(message, operation or STATUS), PAYLOAD)
        response = with_operation(response, operation)
        return with_code(response, code) if response[3] & 15 == NOT_IMP else response

    def _updated(self, message: bytes) -> bytes:
        """Carries out an update, and answers it. The response is made first, so that nothing can fail afterwards."""
        response = self._code_alone(message, SERV_FAIL)
        if response[3] & 15 != SERV_FAIL:
            return response
        if fuzsbanel.check(message) != len(message):
            return with_code(response, FORM_ERR)
        before, code = self._held.serial, self._held.update(message)
        if self._held.serial != before:
            for secondary in self._secondaries:
                secondary.tell()
        return with_code(response, code)

    def _transfer(self, message: bytes, items: List[Union[fuzsbanel.Query, fuzsbanel.Record]], by_stream: bool) -> List[bytes]:
        """The messages of a transfer; for IXFR the SOA alone, where nothing is newer, or where a datagram asks, which says
        that TCP should be used (RFC 1995, 2)."""
        [question, *records] = items
        if question.query_type == IXFR and question.owner.lower() == self._held.name:
            known = [serial_of(it) for it in records if it.section == AUTHORITY and it.record_type == SOA and it.data]
            if len(known) != 1:
                return [self._code_alone(message, FORM_ERR)]
            if not by_stream or is_current(known[0], self._held.serial):
                answer = self._held.zone.answer(with_type(message, SOA), None if by_stream else PAYLOAD)
                return [with_type(answer, IXFR)]
        if not by_stream:
            return [self._code_alone(message, REFUSED)]
        return [with_type(it, question.query_type) for it in self._held.zone.transfer(with_type(message, AXFR))]

    def _one_set(self, message: bytes) -> bytes:
        """What a datagram has for ANY: the first set of the whole answer (RFC 8482, 4.1)."""
        for record in fuzsbanel.records(self._held.zone.answer(message)):
            if record.section == ANSWER:
                return with_type(self._held.zone.answer(with_type(message, record.record_type), PAYLOAD), ANY)
        return self._held.zone.answer(message, PAYLOAD)


def secondary_of(word: str) -> Tuple[Address, int]:
    """The address of a secondary, and the port after a `#` if there is one."""
    address, _, port = word.partition("#")
    return ipaddress.ip_address(address), int(port or 53)


def main() -> None:
    words = argparse.ArgumentParser(description=__doc__, formatter_class=argparse.RawDescriptionHelpFormatter)
    words.add_argument("zone_file")
    words.add_argument("origin")
    words.add_argument("address", type=ipaddress.ip_address)
    words.add_argument("port", type=int)
    words.add_argument("journal")
    named = {"update-from": ipaddress.ip_address, "transfer-to": ipaddress.ip_address, "notify": secondary_of}
    for word, type_ in named.items():
        words.add_argument(f"--{word}", type=type_, action="append", default=[], metavar="ADDRESS")
    given = words.parse_args()
    try:
        held = HeldZone(given.zone_file, given.origin, given.journal)
        secondaries = [Secondary(*it, given.address, given.origin) for it in given.notify]
        server = Server(held, given.address, given.port, set(given.update_from), set(given.transfer_to), secondaries)
        warn(f"{given.origin} with serial {held.serial} at {given.address} port {server.port}")
        server.run()
        held.close()
    except (OSError, OverflowError, Stop) as why:
        sys.exit(f"nameserver: {why}")


if __name__ == "__main__":
    main()
