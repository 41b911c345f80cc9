"""Zone text, and zones that are held."""
import ctypes
import threading
from types import MappingProxyType
from typing import Iterator, Mapping, NamedTuple, Optional

from .library import LIBRARY, FaultFields, IncludedFields, TransferPlace, ZoneHandle, asked, filled
from .refusal import Refusal


class Applied(NamedTuple):
    """What came of an update: the server's code (RFC 2136, 2.2), and whether some set is another than before."""

    code: int
    is_changed: bool


class Fault(NamedTuple):
    """A fault of zone text: the number of its refusal, the name of the included text that it stands in, empty of the text
    itself, the line and the column there, from 1 and in bytes, and what it is, in words."""

    number: int
    name: str
    line: int
    column: int
    words: str


def zone(origin: str, zone_text: str) -> str:
    """The zone of a text, as zone text that can be read again; an empty origin is none. Types and data may stand in the
    generic form too (RFC 3597, 5)."""
    return filled(2 * len(zone_text), "zone", origin, zone_text).decode()


def crossing(included: Mapping[str, str]) -> list:
    """Texts that may be included, by their names, as they are handed over."""
    pieces = [(str.encode(name_), str.encode(text_)) for name_, text_ in included.items()]
    lengths = (IncludedFields * len(pieces))(*((len(name_), len(text_)) for name_, text_ in pieces))
    return [lengths, len(pieces), b"".join(name_ + text_ for name_, text_ in pieces)]


def refusal_of(call: str, *given: object) -> Optional[Refusal]:
    """The refusal of a call that tells where zone text is refused, with its fault; none where it answers."""
    found, room = FaultFields(), 256
    while True:
        name_, words = ctypes.create_string_buffer(room + 1), ctypes.create_string_buffer(room + 1)
        try:
            asked(call, *given, name_, room, words, room, ctypes.byref(found))
            return None
        except Refusal as refusal:
            if not found.line:
                return refusal
            if max(found.name_len, found.words_len) <= room:
                told = name_.raw[:found.name_len].decode(), words.raw[:found.words_len].decode()
                refusal.fault = Fault(refusal.number, told[0], found.line, found.column, told[1])
                return refusal
        room = max(found.name_len, found.words_len)


def zone_check(origin: str, zone_text: str, included: Mapping[str, str] = MappingProxyType({})) -> Optional[Fault]:
    """The first fault of a zone's text, if it has one; `included` are the texts that it may include, by their names.

    >>> zone_check("example.", "$INCLUDE more\\n", {"more": "www 300 A 192.0.2.1"}) is None
    True
    >>> zone_check("example.", "$INCLUDE more\\n", {"more": "\\nwww 300 A 192.0.2"})
    Fault(number=23, name='more', line=2, column=9, words='invalid data for type A')
    >>> zone_check("..", "")
    Traceback (most recent call last):
    ...
    fuzsbanel.Refusal: 23: items that are no data, name or TTL
    """
    refusal = refusal_of("zone_check", origin, zone_text, *crossing(included))
    if refusal and not refusal.fault:
        raise refusal
    return refusal.fault if refusal else None


def apply(update: bytes, origin: str, zone_text: str) -> str:
    """What a server makes of an update and the zone of a text: a line with its code, and the zone then."""
    return filled(2 * len(zone_text), "apply", update, origin, zone_text).decode()


class Zone:
    """A zone that is held: opened at a text and those that it includes, by their names, updated where it is, written as text,
    and closed. Threads may share one; its calls come one after the other. A text that is refused raises a Refusal with its
    `fault`.

    >>> www = "www 300 A 192.0.2.2"
    >>> with Zone("example.", "@ 300 SOA ns hostmaster 1 2 3 4 5") as held:
    ...     held.update(create(1, "example.", www)), held.update(create(1, "example.", www))
    ...     print(held.text(), end="")
    (Applied(code=0, is_changed=True), Applied(code=7, is_changed=False))
    $ORIGIN example.
    example. 300 IN SOA ns.example. hostmaster.example. 1 2 3 4 5
    www.example. 300 IN A 192.0.2.2
    >>> query = bytes.fromhex("00090100000100000000000003777777076578616d706c650000010001")
    >>> with Zone("example.", "@ 300 SOA ns hostmaster 1 2 3 4 5\\n" + www) as held:
    ...     print(text(held.answer(query, 512)).splitlines()[4])
    www.example. 300 IN A 192.0.2.2
    >>> with Zone("example.", "@ 300 SOA ns hostmaster 4294967295 2 3 4 5\\n" + www) as held:
    ...     held.raise_serial(), held.raise_serial()
    ...     transferred = list(held.transfer(zone_transfer(9, "example.")))
    ...     [[data_text(message, found.name) for found in records(message) if found.section == 1] for message in transferred]
    (0, 1)
    [['ns.example. hostmaster.example. 1 2 3 4 5', '192.0.2.2', 'ns.example. hostmaster.example. 1 2 3 4 5']]
    >>> with Zone("example.", "@ 300 SOA ns hostmaster 1 2 3 4 5") as held, held.share() as reader:
    ...     held.update(create(1, "example.", www)), "www" in held.text(), "www" in reader.text()
    (Applied(code=0, is_changed=True), True, False)
    >>> adding = append(2, "example.", www)
    >>> with Zone("example.", "$INCLUDE hosts\\n", {"hosts": www}) as held:
    ...     held.update(adding)
    Applied(code=0, is_changed=False)
    >>> held.close()
    >>> held.text()
    Traceback (most recent call last):
    ...
    fuzsbanel.Refusal: 34: a zone handle that isn't open
    >>> Zone("", www)
    Traceback (most recent call last):
    ...
    fuzsbanel.Refusal: 26: an empty origin or name
    >>> try:
    ...     Zone("example.", "$INCLUDE hosts\\n", {"hosts": "www 300 A 192.0.2"})
    ... except Refusal as refusal:
    ...     refusal.fault
    Fault(number=23, name='hosts', line=1, column=9, words='invalid data for type A')
    """

    def __init__(self, origin: str, zone_text: str, included: Mapping[str, str] = MappingProxyType({})) -> None:
        self._handle, self._lock = ZoneHandle(), threading.Lock()
        refusal = refusal_of("zone_open", origin, zone_text, *crossing(included), ctypes.byref(self._handle))
        if refusal:
            raise refusal

    def update(self, update: bytes) -> Applied:
        """Carries out an update message, and answers the server's code and whether anything changed: with 0, NoError, the update
        is carried out (RFC 2136, 3), with any other, and where it refuses, the zone is as it was. The SOA's serial stays."""
        is_changed = ctypes.c_bool()
        with self._lock:
            code = asked("zone_update", ctypes.byref(self._handle), update, ctypes.byref(is_changed))
        return Applied(code, is_changed.value)

    def answer(self, received: bytes, most: Optional[int] = None) -> bytes:
        """The bytes that an authoritative server of the zone sends for those that it received; none where it sends nothing.
        `most` is how many bytes a datagram may have; without it a stream carries them."""
        with self._lock:
            limit = 65535 if most is None else most
            return filled(512, "zone_answer", ctypes.byref(self._handle), received, limit, most is None)

    def raise_serial(self) -> int:
        """Raises the SOA's serial by one, modulo 2^32, as a server does after an update (RFC 1982, 3.1; RFC 2136, 3.6), and
        answers the new one. It takes no memory of the library's but where the zone is shared, which is copied then."""
        with self._lock:
            return asked("zone_raise_serial", ctypes.byref(self._handle))

    def share(self) -> "Zone":
        """The same zone once more, for another thread to read: no record is copied until one of both is changed, and the other
        stays as it was then. Each has a lock of its own."""
        other = Zone.__new__(Zone)
        other._handle, other._lock = ZoneHandle(), threading.Lock()
        with self._lock:
            asked("zone_share", ctypes.byref(self._handle), ctypes.byref(other._handle))
        return other

    def transfer(self, query: bytes) -> Iterator[bytes]:
        """The messages of the zone transfer that a query of type AXFR asks for, one after the other (RFC 5936, 2.2), each for
        a stream; of another query one with a code alone. The zone has to stay as it is till the last was taken: what comes
        after a change is that of the changed zone."""
        query, place = bytes(query), TransferPlace()
        while True:
            with self._lock:
                message = filled(65535, "zone_serve_transfer", ctypes.byref(self._handle), query, ctypes.byref(place))
            if not message:
                return
            yield message

    def text(self) -> str:
        """The zone as text, which can be opened again with the same origin."""
        with self._lock:
            return filled(4096, "zone_text", ctypes.byref(self._handle)).decode()

    def close(self) -> None:
        """Lets the zone go. What is closed already stays so."""
        with self._lock:
            LIBRARY.fuzsbanel_zone_close(ctypes.byref(self._handle))

    def __enter__(self) -> "Zone":
        return self

    def __exit__(self, *error) -> None:
        self.close()

    def __del__(self) -> None:
        if "_handle" in vars(self):  # else it was never begun
            self.close()
