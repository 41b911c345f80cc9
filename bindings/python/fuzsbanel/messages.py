"""Messages: read, cut, and looked through by the places of their questions and records."""
import ctypes
from typing import Iterator, NamedTuple, Optional, Tuple, Union

from .library import (NO_ROOM, HeaderFields, ItemFields, OptionFields, QueryFields, RecordFields, ResponseFields, Room, asked,
                      filled, number)

# how many bytes the text of a name has at most
LONGEST_NAME = 1004


class Header(NamedTuple):
    """The fields of a header, its counts among them (RFC 1035, 4.1.1)."""

    id: int
    queries: int
    answers: int
    authorities: int
    additionals: int
    opcode: int
    rcode: int
    response: bool
    authoritative: bool
    truncated: bool
    recursion_desired: bool
    recursion_available: bool
    authentic_data: bool
    checking_disabled: bool


class Response(NamedTuple):
    """What a response says: whether it answers some question, for how many seconds the absence of an answer may be kept,
    None without an SOA that says so, and how many bytes its sender takes (RFC 2308, 5; RFC 6891, 6.2.3)."""

    answers: bool
    negative_ttl: Optional[int]
    max_payload: int


class Query(NamedTuple):
    """A question: the place of its name, where it begins, QTYPE, and the class field (RFC 1035, 4.1.2). `owner` is that
    name in wire form, empty where the question was found alone."""

    name: int
    query_type: int
    class_: int
    owner: bytes = b""


class Record(NamedTuple):
    """A record: the place of its owner, where it begins, type, class field, TTL in seconds, and data as it stands (RFC
    1035, 4.1.3), and the place of that. `section` is 1 for answers, 2 for authorities and 3 for additional records, and
    `owner` the owner in wire form; 0 and empty where the record was found alone."""

    name: int
    record_type: int
    class_: int
    ttl: int
    data: bytes
    data_place: int
    section: int = 0
    owner: bytes = b""


class EdnsOption(NamedTuple):
    """An EDNS option: its code and its data (RFC 6891, 6.1.2)."""

    code: int
    data: bytes


def check(message: bytes) -> int:
    """How many bytes the message takes that the bytes begin with."""
    return asked("check", message)


def cut(message: bytes, limit: int) -> bytes:
    """The message that the bytes begin with, in at most `limit` bytes, up to 65,535."""
    return filled(number(limit, ctypes.c_uint16), "cut", message, limit)


def text(message: bytes) -> str:
    """The text of the message that the bytes begin with."""
    return filled(4096, "text", message).decode()


def header(message: bytes) -> Header:
    """The header that the bytes begin with."""
    fields = HeaderFields()
    asked("header", message, ctypes.byref(fields))
    return Header(*(getattr(fields, field) for field in Header._fields))


def response(message: bytes) -> Response:
    """What the response says that the bytes begin with.

    >>> denied = bytes.fromhex("000981030001000000010000" "03777777076578616d706c6500" "00010001"
    ...     "c01000060001" "0000003c" "0018" "c00cc00c" "00000001" "00000002" "00000003" "00000004" "00000005")
    >>> response(denied)
    Response(answers=False, negative_ttl=5, max_payload=512)
    >>> response(build_query(9, "www.example", 1))
    Traceback (most recent call last):
    ...
    fuzsbanel.Refusal: 16: a query, where a response is asked for
    """
    fields = ResponseFields()
    answers = asked("response", message, ctypes.byref(fields)) != 0
    return Response(answers, fields.negative_ttl if fields.has_negative_ttl else None, fields.max_payload)


def build_query(id_: int, name_text: str, record_type: int, class_: int = 1, recursion: bool = True,
                payload: int = 0) -> bytes:
    """A query with one question. The name is taken as absolute. With a payload the query has EDNS, which says that answers
    of so many bytes are taken, and of 512 at least (RFC 6891, 6.2.3).

    >>> build_query(9, "www.example", 1).hex()
    '00090100000100000000000003777777076578616d706c650000010001'
    >>> build_query(9, "www.example.", 1, payload=1232)[29:].hex()
    '00002904d0000000000000'
    """
    return filled(512, "build_query", id_, name_text, record_type, class_, recursion, payload)


def build_notify(id_: int, origin: str) -> bytes:
    """The NOTIFY by which a server tells a secondary that the SOA of a zone may have changed (RFC 1996, 3). The secondary
    sends it back as a response with its id.

    >>> build_notify(9, "example").hex()
    '000924000001000000000000076578616d706c650000060001'
    """
    return filled(512, "build_notify", id_, origin)


def build_response(query: bytes, code: int = 0, *, authoritative: bool = False, recursion_available: bool = False,
                   answers: str = "", authorities: str = "", additionals: str = "", most: Optional[int] = None) -> bytes:
    """The response to a query, with a response code and the records of zone texts, names ending in the root: of those of a
    section the ones of type CNAME stand first, and all in the order of owners and types. `most` is how many bytes a datagram
    may have, where the query's EDNS has an own say too; without it a stream carries the response.

    >>> asked = build_query(9, "www.example", 1)
    >>> build_response(asked, recursion_available=True, answers="www.example 60 A 192.0.2.1").hex()
    '00098180000100010000000003777777076578616d706c650000010001c00c000100010000003c0004c0000201'
    >>> denied = build_response(asked, code_number("NXDomain"), authorities="example 60 SOA ns m 1 2 3 4 5", most=1232)
    >>> response(denied).negative_ttl
    5
    >>> build_response(denied)
    Traceback (most recent call last):
    ...
    fuzsbanel.Refusal: 38: a response, where a query is asked for
    """
    limit = 65535 if most is None else most
    return filled(512, "build_response", query, code, authoritative, recursion_available, answers, authorities, additionals,
                  limit, most is None)


def name(message: bytes, place: int) -> str:
    """The text of the name at a place of the message; of a name in wire form, that at place 0."""
    return filled(LONGEST_NAME, "name", message, place).decode()


def data_text(message: bytes, place: int) -> str:
    """The text of the data of the record at a place of the message."""
    return filled(LONGEST_NAME, "data_text", message, place).decode()


def name_wire(name_text: str) -> bytes:
    """The name of a text in wire form, taken as absolute; `name` at place 0 reads it.

    >>> name_wire("www.example")
    b'\\x03www\\x07example\\x00'
    >>> name(name_wire("www.example"), 0)
    'www.example.'
    """
    return filled(255, "name_wire", name_text)


def data_wire(record_type: int, text_: str) -> bytes:
    """The data of a type that a text is, in wire form: what stands after the type in zone text, names ending in the root.

    >>> data_wire(15, "10 mail.example").hex()
    '000a046d61696c076578616d706c6500'
    >>> data_wire(1, "192.0.2.300")
    Traceback (most recent call last):
    ...
    fuzsbanel.Refusal: 23: items that are no data, name or TTL
    """
    return filled(512, "data_wire", record_type, text_)


def wire_text(record_type: int, octets: bytes) -> str:
    """The text of the data of a type that these bytes are.

    >>> wire_text(15, data_wire(15, "10 mail.example")), wire_text(257, b"\\0\\5i")
    ('10 mail.example.', '\\\\# 3 000569')
    >>> wire_text(1, b"\\xc0\\0\\2")
    Traceback (most recent call last):
    ...
    fuzsbanel.Refusal: 8: data that its type doesn't read
    """
    return filled(512, "wire_text", record_type, octets).decode()


def query(message: bytes, place: int) -> Tuple[Query, int]:
    """The question at a place of the message, and the place after it; the first stands at 12."""
    fields = QueryFields()
    end = asked("query", message, place, ctypes.byref(fields))
    return Query(fields.name, fields.query_type, fields.class_), end


def record_of(message: bytes, fields: RecordFields, *more) -> Record:
    data = message[fields.data:fields.data + fields.data_len]
    return Record(fields.name, fields.record_type, fields.class_, fields.ttl, data, fields.data, *more)


def record(message: bytes, place: int) -> Tuple[Record, int]:
    """The record at a place of the message, and the place after it; the first stands after the last question."""
    message, fields = bytes(message), RecordFields()
    end = asked("record", message, place, ctypes.byref(fields))
    return record_of(message, fields), end


def walk(message: bytes) -> Iterator[Union[Query, Record]]:
    """The questions and the records of all sections that the header counts, one after the other, OPT and TSIG among them,
    each with its name in wire form. The message is read whole before the first is given, and refused by its first fault.

    >>> response = bytes.fromhex("00098080000000000000000100002904d0000000000006000300026162")
    >>> [opt] = walk(response)
    >>> opt.section, opt.class_, list(options(opt.data))
    (3, 1232, [EdnsOption(code=3, data=b'ab')])
    >>> [found, place] = record(response, 12)
    >>> found == opt._replace(section=0, owner=b""), place == len(response)
    (True, True)
    >>> list(walk(response[:20]))
    Traceback (most recent call last):
    ...
    fuzsbanel.Refusal: 4: the bytes end inside a field, or before the place
    """
    message, room = bytes(message), Room()
    while True:
        items = (ItemFields * room.items)()
        names = ctypes.create_string_buffer(room.names + 1)
        counted = room.items, names, room.names
        if asked("walk", message, items, *counted, ctypes.byref(room)) != NO_ROOM:
            break
    held = names.raw
    for item in items:
        owner = held[item.name:item.name + item.name_len]
        if item.section == 0:
            yield Query(item.record.name, item.record.record_type, item.record.class_, owner)
        else:
            yield record_of(message, item.record, item.section, owner)


def queries(message: bytes) -> Iterator[Query]:
    """The questions that the header counts, as `walk` has them."""
    return (item for item in walk(message) if isinstance(item, Query))


def records(message: bytes) -> Iterator[Record]:
    """The records of all sections that the header counts, as `walk` has them."""
    return (item for item in walk(message) if isinstance(item, Record))


def options(data: bytes) -> Iterator[EdnsOption]:
    """The options in the data of an OPT record."""
    data, fields, place = bytes(data), OptionFields(), 0
    while place < len(data):
        place = asked("option", data, place, ctypes.byref(fields))
        yield EdnsOption(fields.code, data[fields.data:fields.data + fields.data_len])
