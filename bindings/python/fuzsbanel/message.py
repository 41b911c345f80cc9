"""A message that was read whole."""
from typing import NamedTuple, Optional, Tuple, Union

from .data import Data, has_fields, of_octets, of_text
from .messages import (EdnsOption, Query, Record, Response, check, cut, data_text, header, name, options, response, text,
                       walk)

TYPE_OPT = 41
# how many bytes each sender takes at least (RFC 6891, 6.2.3)
LEAST_PAYLOAD = 512


class Edns(NamedTuple):
    """What an OPT record says: how many bytes of a datagram its sender takes, the version of EDNS, whether it takes the
    records of DNSSEC, and the options (RFC 6891, 6.1.2 and 6.1.3)."""

    payload: int
    version: int
    dnssec_ok: bool
    options: Tuple[EdnsOption, ...]


class Message:
    """The message that bytes begin with: its header, its questions, and the records of its sections, OPT and TSIG among the
    additional ones.

    >>> message = Message(bytes.fromhex(
    ...     "000981800001000100000001076578616d706c6500000f0001c00c000f00010000012c0009000a046d61696cc00c"
    ...     "00002904d0010080000006000300026162"))
    >>> message.header.id, message.rcode, [message.owner(asked) for asked in message.queries]
    (9, 16, ['example.'])
    >>> [found] = message.answers
    >>> message.owner(found), found.ttl, message.data(found)
    ('example.', 300, MX(preference=10, exchange='mail.example.'))
    >>> message.data(found._replace(ttl=0))
    Traceback (most recent call last):
    ...
    ValueError: the record is of another message
    >>> message.edns
    Edns(payload=1232, version=0, dnssec_ok=True, options=(EdnsOption(code=3, data=b'ab'),))
    >>> message.cut(512) == message.wire, message.response().max_payload
    (True, 1232)
    >>> Message(message.wire[:40])
    Traceback (most recent call last):
    ...
    fuzsbanel.Refusal: 7: RDLENGTH says more bytes than are left
    """

    def __init__(self, received: bytes) -> None:
        received = bytes(received)
        self.wire = received[:check(received)]
        self.header = header(self.wire)
        items = list(walk(self.wire))
        self.queries = tuple(item for item in items if isinstance(item, Query))
        records = [item for item in items if isinstance(item, Record)]
        self.answers, self.authorities, self.additionals = (
            tuple(item for item in records if item.section == section) for section in (1, 2, 3))
        self._at = {record.name: record for record in records}

    def owner(self, item: Union[Query, Record]) -> str:
        """The text of the name of a question or a record."""
        return name(item.owner, 0)

    def data(self, record: Record) -> Data:
        """The data of one of the records, with the fields of its type. It reads the record again, and follows the pointers
        of its names, which a hostile message makes slow. A record of another message is a ValueError."""
        if self._at.get(record.name) != record:
            raise ValueError("the record is of another message")
        if record.data and has_fields(record.record_type):
            return of_text(record.record_type, data_text(self.wire, record.name))
        return of_octets(record.record_type, record.data)

    @property
    def edns(self) -> Optional[Edns]:
        """What the OPT record says, if there is one."""
        for record in self.additionals:
            if record.record_type == TYPE_OPT:
                payload = max(record.class_, LEAST_PAYLOAD)
                return Edns(payload, record.ttl >> 16 & 0xFF, bool(record.ttl >> 15 & 1), tuple(options(record.data)))
        return None

    @property
    def rcode(self) -> int:
        """The code of a response, the upper bits that EDNS has for it among it (RFC 6891, 6.1.3)."""
        upper = [record.ttl >> 24 for record in self.additionals if record.record_type == TYPE_OPT]
        return self.header.rcode | sum(upper) << 4

    def response(self) -> Response:
        """What the message says as a response."""
        return response(self.wire)

    def text(self) -> str:
        """The text of the message."""
        return text(self.wire)

    def cut(self, limit: int) -> bytes:
        """The message in at most `limit` bytes, up to 65,535."""
        return cut(self.wire, limit)
