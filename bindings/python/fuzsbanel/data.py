"""The data of records as values with fields, one type for each that zone text has (RFC 1035, 3.3 and 3.4)."""
import ipaddress
from typing import NamedTuple, Tuple, Union


class A(NamedTuple):
    """An IPv4 address (RFC 1035, 3.4.1)."""

    address: ipaddress.IPv4Address


class AAAA(NamedTuple):
    """An IPv6 address (RFC 3596, 2.2)."""

    address: ipaddress.IPv6Address


class NS(NamedTuple):
    """A name server (RFC 1035, 3.3.11)."""

    name: str


class CNAME(NamedTuple):
    """The name that the owner is an alias of (RFC 1035, 3.3.1)."""

    name: str


class PTR(NamedTuple):
    """A name that is pointed to (RFC 1035, 3.3.12)."""

    name: str


class ANAME(NamedTuple):
    """The name whose addresses the owner has."""

    name: str


class MX(NamedTuple):
    """A mail exchange: the lower the preference, the sooner it is tried (RFC 1035, 3.3.9)."""

    preference: int
    exchange: str


class SRV(NamedTuple):
    """Where a service is (RFC 2782)."""

    priority: int
    weight: int
    port: int
    target: str


class SOA(NamedTuple):
    """The start of a zone, its times in seconds (RFC 1035, 3.3.13)."""

    mname: str
    rname: str
    serial: int
    refresh: int
    retry: int
    expire: int
    minimum: int


class TXT(NamedTuple):
    """Character strings (RFC 1035, 3.3.14)."""

    strings: Tuple[bytes, ...]


class Opaque(NamedTuple):
    """Data of another type, or none, as in an update (RFC 2136, 2.4 and 2.5): its bytes, as they stand."""

    octets: bytes


Data = Union[A, AAAA, NS, CNAME, PTR, ANAME, MX, SRV, SOA, TXT, Opaque]

TYPE_TXT = 16
# the type of each field of data whose text is its fields, with spaces between them
FIELDS = {
    1: (A, ipaddress.IPv4Address),
    2: (NS, str),
    5: (CNAME, str),
    6: (SOA, str, str, int, int, int, int, int),
    12: (PTR, str),
    15: (MX, int, str),
    28: (AAAA, ipaddress.IPv6Address),
    33: (SRV, int, int, int, str),
    65305: (ANAME, str),
}


def has_fields(record_type: int) -> bool:
    """Whether data of a type has a text of fields."""
    return record_type in FIELDS


def of_text(record_type: int, text: str) -> Data:
    """The data of a type with such a text. No name in it has a space, since one within a label is written \\\\032.

    >>> of_text(33, "0 5 5060 sip.example.")
    SRV(priority=0, weight=5, port=5060, target='sip.example.')
    >>> of_text(6, "ns.example. a\\\\032b.example. 1 2 3 4 5").rname
    'a\\\\032b.example.'
    """
    made, *fields = FIELDS[record_type]
    return made(*(field(word) for field, word in zip(fields, text.split(" "))))


def of_octets(record_type: int, octets: bytes) -> Data:
    """The data of a type whose text isn't read: the strings of TXT, and that of other types as it is.

    >>> of_octets(16, b"\\x02ab\\x00")
    TXT(strings=(b'ab', b''))
    >>> of_octets(99, b"ab")
    Opaque(octets=b'ab')
    """
    if record_type != TYPE_TXT or not octets:
        return Opaque(octets)
    strings, place = [], 0
    while place < len(octets):
        end = place + 1 + octets[place]
        strings.append(octets[place + 1:end])
        place = end
    return TXT(tuple(strings))
