#!/usr/bin/env python3
"""Looks names up at a server that answers for others: a question a line, as `www.example A`, and prints the records that
answer it, a line each, or why there are none.

Each question has an id of the system's random numbers and a socket of its own, so a port that nobody can foretell. An
answer is taken only from the address and the port that were asked, with QR, the id, and the one question the same; others
are passed over. Of what is taken only the aliases that lead from the name, and the records that end them, are believed and
kept, for the least of their TTLs (RFC 2181, 8); that there are none is kept as the SOA says, three hours at most (RFC 2308,
5), and a server's failure not at all. What a datagram has no room for is asked for again by TCP.

lookup.py ADDRESS [PORT] [--timeout SECONDS] [--tries N]
"""
import argparse
import os
import secrets
import socket
import struct
import sys
import time
from typing import Dict, List, NamedTuple, Optional, Tuple

sys.path.insert(0, os.path.join(os.path.dirname(os.path.realpath(__file__)), "../python"))
import fuzsbanel  # noqa: E402

TYPES = {"A": 1, "NS": 2, "CNAME": 5, "SOA": 6, "PTR": 12, "MX": 15, "TXT": 16, "AAAA": 28, "SRV": 33}
IN, CNAME = 1, 5
NO_ERROR, NX_DOMAIN = 0, 3
CODES = {0: "NoError", 1: "FormErr", 2: "ServFail", 3: "NXDomain", 4: "NotImp", 5: "Refused"}
# how many bytes of a datagram pass any network (RFC 9715, 3), of a name in wire form, and of a stream's message
PAYLOAD, MOST = 1232, 65535
# how many aliases are followed, and for how many seconds an absence is kept at most (RFC 2308, 5)
ALIASES, THREE_HOURS = 12, 10800
TOP_BIT = 1 << 31


class Answer(NamedTuple):
    """What was found: why there are no records, if there are none; the owners and data of the aliases and of those; and for
    how many seconds that may be kept."""

    absence: str
    records: List[Tuple[str, str]]
    ttl: int


class Failure(Exception):
    """No answer came, or none that may be believed."""


def lowered(name: bytes) -> bytes:
    """A name in wire form, its ASCII letters in lower case (RFC 4343, 3)."""
    return name.lower()


def wire_name(message: bytes, place: int) -> bytes:
    """The name at a place of a message, in wire form and in lower case: that of a query that asks for it."""
    asking = fuzsbanel.build_query(0, fuzsbanel.name(message, place), TYPES["A"])
    return lowered(asking[12:-4])


def is_answer(query: bytes, message: bytes) -> bool:
    """Whether a message answers this query: a response with its id, its operation, and the one question the same."""
    try:
        header = fuzsbanel.header(message)
        [asked] = fuzsbanel.queries(query)
        questions = list(fuzsbanel.queries(message))
    except fuzsbanel.Refusal:
        return False
    return (header.response and header.opcode == 0 and header.id == fuzsbanel.header(query).id and len(questions) == 1
            and lowered(questions[0].owner) == lowered(asked.owner)
            and (questions[0].query_type, questions[0].class_) == (asked.query_type, asked.class_))


def by_datagram(query: bytes, server: Tuple[str, int], seconds: float) -> bytes:
    """The first answer that comes from where it was asked, within so many seconds."""
    family = socket.getaddrinfo(*server, type=socket.SOCK_DGRAM)[0][0]
    with socket.socket(family, socket.SOCK_DGRAM) as sock:
        # connected, so that the system hands on nothing from elsewhere, and chooses the port anew
        sock.connect(server)
        sock.send(query)
        end = time.monotonic() + seconds
        while (left := end - time.monotonic()) > 0:
            sock.settimeout(left)
            message = sock.recv(MOST)
            if is_answer(query, message):
                return message
    raise TimeoutError


def exchanged_by_stream(query: bytes, server: Tuple[str, int], seconds: float) -> bytes:
    """What a server sends for a message by TCP, within so many seconds in all (RFC 1035, 4.2.2)."""
    end = time.monotonic() + seconds
    with socket.create_connection(server, seconds) as sock:
        sock.sendall(struct.pack("!H", len(query)) + query)
        received = b""
        while len(received) < 2 or len(received) < 2 + struct.unpack("!H", received[:2])[0]:
            if (left := end - time.monotonic()) <= 0:
                raise TimeoutError
            sock.settimeout(left)
            if not (piece := sock.recv(MOST)):
                raise Failure("the stream ends inside a message")
            received += piece
    return received[2:2 + struct.unpack("!H", received[:2])[0]]


def by_stream(query: bytes, server: Tuple[str, int], seconds: float) -> bytes:
    """The answer by TCP, within so many seconds in all."""
    message = exchanged_by_stream(query, server, seconds)
    if not is_answer(query, message):
        raise Failure("what came by TCP is no answer")
    return message


def exchanged(name: str, record_type: int, server: Tuple[str, int], seconds: float, tries: int) -> bytes:
    """The answer to a question, by TCP where a datagram has no room for it."""
    for _ in range(tries):
        query = fuzsbanel.build_query(secrets.randbelow(1 << 16), name, record_type, IN, True, PAYLOAD)
        try:
            message = by_datagram(query, server, seconds)
            return by_stream(query, server, seconds) if fuzsbanel.header(message).truncated else message
        except (OSError, TimeoutError):
            continue
    raise Failure("no answer")


def kept_for(ttl: int) -> int:
    """A TTL whose top bit is set is taken as 0 (RFC 2181, 8)."""
    return 0 if ttl & TOP_BIT else ttl


def answer_in(message: bytes, record_type: int) -> Answer:
    """What an answer says of its question: of its answers the aliases that lead from the name, and what ends them."""
    [asked] = fuzsbanel.queries(message)
    code = fuzsbanel.header(message).rcode
    if code not in (NO_ERROR, NX_DOMAIN):
        return Answer(CODES.get(code, f"code {code}"), [], 0)
    answers = [r for r in fuzsbanel.records(message) if r.section == 1 and r.class_ == IN]
    name, seen, chain = lowered(asked.owner), set(), []
    while len(seen) <= ALIASES and name not in seen:
        seen.add(name)
        here = [r for r in answers if lowered(r.owner) == name]
        ends = [r for r in here if r.record_type == record_type]
        aliases = [r for r in here if r.record_type == CNAME]
        if ends or not aliases:
            return ended(message, code, chain + ends, bool(ends))
        chain.append(aliases[0])
        name = wire_name(message, aliases[0].data_place)
    raise Failure("aliases that come to no end")


def ended(message: bytes, code: int, chain: List[fuzsbanel.Record], is_found: bool) -> Answer:
    """The answer of a chain of aliases with the records that end it, or with none."""
    records = [(fuzsbanel.name(message, r.name), fuzsbanel.data_text(message, r.name)) for r in chain]
    ttls = [kept_for(r.ttl) for r in chain]
    if is_found:
        return Answer("", records, min(ttls))
    seconds = fuzsbanel.response(message).negative_ttl
    ttls.append(0 if seconds is None else min(kept_for(seconds), THREE_HOURS))
    return Answer(CODES[code] if code else "no data", records, min(ttls))


class Resolver:
    """Answers, kept for as long as they may be."""

    def __init__(self, server: Tuple[str, int], seconds: float, tries: int) -> None:
        self._asking = server, seconds, tries
        self._kept: Dict[Tuple[str, int], Tuple[float, Answer]] = {}

    def look_up(self, name: str, record_type: int) -> Answer:
        key = name.lower().rstrip("."), record_type
        known = self._kept.get(key)
        if known and known[0] > time.monotonic():
            return known[1]
        answer = answer_in(exchanged(name, record_type, *self._asking), record_type)
        self._kept.pop(key, None)
        if answer.ttl:
            self._kept[key] = time.monotonic() + answer.ttl, answer
        return answer


def type_of(word: str) -> Optional[int]:
    """The type of a name, or of TYPE and its number (RFC 3597, 5)."""
    word = word.upper()
    if word.startswith("TYPE") and word[4:].isascii() and word[4:].isdigit() and int(word[4:]) < 1 << 16:
        return int(word[4:])
    return TYPES.get(word)


def main() -> None:
    words = argparse.ArgumentParser(description=__doc__, formatter_class=argparse.RawDescriptionHelpFormatter)
    words.add_argument("address")
    words.add_argument("port", nargs="?", type=int, default=53)
    words.add_argument("--timeout", type=float, default=2.0, metavar="SECONDS")
    words.add_argument("--tries", type=int, default=3)
    given = words.parse_args()
    resolver = Resolver((given.address, given.port), given.timeout, given.tries)
    for line in sys.stdin:
        asked = line.split()
        if not asked:
            continue
        record_type = type_of(asked[1]) if len(asked) > 1 else TYPES["A"]
        if record_type is None:
            print(f"{line.strip()}: no type", flush=True)
            continue
        try:
            answer = resolver.look_up(asked[0], record_type)
        except (Failure, fuzsbanel.Refusal) as why:
            print(f"{line.strip()}: {why}", flush=True)
            continue
        for owner, data in answer.records:
            print(f"{owner} {data}")
        if answer.absence:
            print(f"{line.strip()}: {answer.absence}")
        sys.stdout.flush()


if __name__ == "__main__":
    main()
