"""Names (RFC 1035, 3.1 and 5.1): their texts, their order, and what is refused."""
from typing import NamedTuple


class Refused(Exception):
    """A refusal, by its number."""

    def __init__(self, number):
        super().__init__(number)
        self.number = number


BAD_TEXT = 23


class Name(NamedTuple):
    labels: tuple
    absolute: bool


ROOT = Name((), True)


def plain_length(labels):
    """Bytes of a name that is written without a pointer."""
    return sum(len(label) + 1 for label in labels) + 1


def folded(name):
    """The same for names that are equal, and for no others."""
    return name.absolute, tuple(label.lower() for label in name.labels)


def is_zone_of(zone, name):
    after = len(name.labels) - len(zone.labels)
    return after >= 0 and folded(name)[1][after:] == folded(zone)[1]


def made_absolute(name):
    return Name(name.labels, True)


def escaped(data, first, marked):
    """Printable bytes from `first` on as they are, the marked ones after a backslash, others as three digits."""
    def shown(byte):
        return ("\\" if chr(byte) in marked else "") + chr(byte) if first <= byte <= 0x7E else f"\\{byte:03}"

    return "".join(shown(byte) for byte in data)


def name_text(name):
    if name == ROOT:
        return "."
    return ".".join(escaped(label, 0x21, '.\\"();@$') for label in name.labels) + ("." if name.absolute else "")


def is_digits(text):
    return text != "" and all(it in "0123456789" for it in text)


def unescaped(text, at):
    """The bytes that the escape at a backslash stands for, and the place after it."""
    after = text[at + 1 : at + 4]
    if is_digits(after[:1]):
        if len(after) < 3 or not is_digits(after) or int(after) > 255:
            raise Refused(BAD_TEXT)
        return bytes([int(after)]), at + 4
    if not after:
        raise Refused(BAD_TEXT)
    return after[0].encode(), at + 2


def labels_of(text):
    """The labels that points part, an empty one among them."""
    labels, at = [b""], 0
    while at < len(text):
        if text[at] == ".":
            labels.append(b"")
            at += 1
        elif text[at] == "\\":
            character, after = unescaped(text, at)
            if not text[at:after].isascii():
                raise Refused(BAD_TEXT)
            labels[-1] += character
            at = after
        elif 0x21 <= ord(text[at]) <= 0x7E:
            labels[-1] += text[at].encode()
            at += 1
        else:
            raise Refused(BAD_TEXT)
    return labels


def parse_name(text, origin):
    """A name from its text; a relative one gets the labels of the origin, where there is one."""
    if text == "@" and origin is not None:
        return origin
    if text == ".":
        return ROOT
    labels = labels_of(text)
    absolute = text != "@" and labels[-1] == b""
    if absolute:
        labels.pop()
    if text == "@" or not labels or not all(1 <= len(label) <= 63 for label in labels):
        raise Refused(BAD_TEXT)
    if not absolute and origin is not None:
        labels, absolute = [*labels, *origin.labels], True
    if plain_length(labels) > 255:
        raise Refused(BAD_TEXT)
    return Name(tuple(labels), absolute)
