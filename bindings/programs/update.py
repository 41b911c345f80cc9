#!/usr/bin/env python3
"""Sends updates (RFC 2136) by TCP, as the words of nsupdate say them, a line each:

    server ADDRESS [PORT]
    zone NAME
    prereq nxrrset NAME TYPE
    prereq yxrrset NAME TYPE [DATA]
    update add NAME TTL TYPE DATA
    update delete NAME [TYPE [DATA]]
    send

Each name is absolute, with a dot at its end or without. What stands before a `send` is one message, by one call of the
library, so it is one of these: records are added to a set, or only if it is there (yxrrset), or only if it isn't (nxrrset);
the set that is there, which yxrrset says with the data of each record and which is deleted so, gives way to the records that
are added; or records of a set, a set, or all sets of a name are deleted. No call builds an update of several sets, or with
nxdomain or yxdomain: nothing is sent of one.

The first line that can't be read, and the first update that is answered with another code than NoError, end the program, with
status 1 and 2.

update.py [--timeout SECONDS]
"""
import argparse
import os
import secrets
import sys
from typing import List, NamedTuple, Tuple

sys.path.insert(0, os.path.join(os.path.dirname(os.path.realpath(__file__)), "../python"))
import fuzsbanel  # noqa: E402
from lookup import Failure, exchanged_by_stream, type_of  # noqa: E402

UPDATE = 5
CODES = ["NoError", "FormErr", "ServFail", "NXDomain", "NotImp", "Refused", "YXDomain", "YXRRSet", "NXRRSet", "NotAuth",
         "NotZone"]


class Refused(Exception):
    """What can't be read, built or sent, in words."""


class Line(NamedTuple):
    """What a line says: an owner, a type or none, TTL and data."""

    owner: str
    type_word: str
    ttl: str = "0"
    data: str = ""

    def key(self) -> Tuple[str, str]:
        return self.owner.lower().rstrip("."), self.type_word.upper()


def text_of(lines: List[Line]) -> str:
    """The zone text of records, in which each name is absolute."""
    return "$ORIGIN .\n" + "".join(f"{it.owner} {it.ttl} {it.type_word} {it.data}\n" for it in lines)


class Update:
    """What the lines before a `send` say."""

    def __init__(self) -> None:
        self.absent: List[Line] = []
        self.present: List[Line] = []
        self.added: List[Line] = []
        self.deleted: List[Line] = []

    def message(self, zone: str) -> bytes:
        """The message that says all of it, if a call builds one."""
        lines = self.absent + self.present + self.added + self.deleted
        if not lines or len({it.key() for it in lines}) > 1:
            raise Refused("no call builds an update of several sets, or of none")
        id_, new = secrets.randbelow(1 << 16), text_of(self.added)
        said = len(self.absent), len(self.present), bool(self.added), len(self.deleted)
        has_data = [bool(it.data) for it in self.absent + self.present + self.deleted]
        if said == (1, 0, True, 0) and not any(has_data):
            return fuzsbanel.create(id_, zone, new)
        if said in ((0, 0, True, 0), (0, 1, True, 0)) and not any(has_data):
            return fuzsbanel.append(id_, zone, new, must_exist=bool(self.present))
        if self.added and self.present and sorted(self.present) == sorted(self.deleted) and not self.absent and all(has_data):
            return fuzsbanel.compare_and_swap(id_, zone, text_of(self.present), new)
        if said[:3] == (0, 0, False) and all(has_data):
            return fuzsbanel.delete_by_rdata(id_, zone, text_of(self.deleted))
        if said == (0, 0, False, 1) and lines[0].type_word:
            return fuzsbanel.delete_rrset(id_, zone, lines[0].owner, number_of(lines[0].type_word))
        if said == (0, 0, False, 1):
            return fuzsbanel.delete_all(id_, zone, lines[0].owner)
        raise Refused("no call builds an update with these prerequisites")


def number_of(type_word: str) -> int:
    number = type_of(type_word)
    if number is None:
        raise Refused(f"{type_word}: no type")
    return number


def absolute(name: str) -> str:
    return name if name.endswith(".") else f"{name}."


class Session:
    """Where updates go, and the one that is being said."""

    def __init__(self, seconds: float) -> None:
        self._seconds, self._server, self._zone, self._update = seconds, ("", 53), "", Update()

    def take(self, line: str) -> int:
        """Takes a line, and answers the code of the update that it sends, or 0."""
        words = line.split()
        if words == ["send"]:
            update, self._update = self._update, Update()
            return self._sent(update)
        if words[:1] == ["server"] and (len(words) == 2 or len(words) == 3 and words[2].isascii() and words[2].isdigit()):
            self._server = words[1], int(words[2]) if words[2:] else 53
        elif words[:1] == ["zone"] and len(words) == 2:
            self._zone = absolute(words[1])
        elif words[:2] == ["update", "add"] and len(words) >= 6:
            _, _, owner, ttl, type_word, data = line.split(None, 5)
            self._update.added.append(Line(absolute(owner), type_word, ttl, data.strip()))
        elif words[:2] == ["update", "delete"] and len(words) >= 3:
            self._update.deleted.append(set_of(line))
        elif words[:2] == ["prereq", "yxrrset"] and len(words) >= 4:
            self._update.present.append(set_of(line))
        elif words[:2] == ["prereq", "nxrrset"] and len(words) == 4:
            self._update.absent.append(set_of(line))
        elif words[:2] in (["prereq", "nxdomain"], ["prereq", "yxdomain"]):
            raise Refused(f"no call builds an update with {words[1]}")
        elif words:
            raise Refused(f"not understood: {line.strip()}")
        return 0

    def _sent(self, update: Update) -> int:
        if not self._server[0] or not self._zone:
            raise Refused("`server` and `zone` come before `send`")
        message = update.message(self._zone)
        header = fuzsbanel.header(exchanged_by_stream(message, self._server, self._seconds))
        if not header.response or (header.id, header.opcode) != (fuzsbanel.header(message).id, UPDATE):
            raise Refused("what came is no answer")
        return header.rcode


def set_of(line: str) -> Line:
    """The set that a line names after two words: its owner, and its type and data if they are there."""
    _, _, owner, *rest = line.split(None, 4)
    type_word, data = [*rest, "", ""][:2]
    return Line(absolute(owner), type_word, data=data.strip())


def main() -> None:
    words = argparse.ArgumentParser(description=__doc__, formatter_class=argparse.RawDescriptionHelpFormatter)
    words.add_argument("--timeout", type=float, default=5.0, metavar="SECONDS")
    session = Session(words.parse_args().timeout)
    for number, line in enumerate(sys.stdin, 1):
        try:
            code = session.take(line)
        except (Refused, Failure, OSError, OverflowError, fuzsbanel.Refusal) as why:
            sys.exit(f"update: line {number}: {why}")
        if code:
            print(f"update: line {number}: {CODES[code] if code < len(CODES) else code}", file=sys.stderr)
            sys.exit(2)


if __name__ == "__main__":
    main()
