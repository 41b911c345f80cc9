"""The mnemonics of types, classes and response codes, and the version of the library."""
from typing import Tuple

from .library import LIBRARY, asked, filled

# how many bytes the longest mnemonic has at most
LONGEST = 16


def version() -> Tuple[int, int, int]:
    """The version of the library that is loaded.

    >>> version()
    (0, 1, 0)
    """
    thousands, patch = divmod(LIBRARY.fuzsbanel_version(), 1000)
    return (*divmod(thousands, 1000), patch)


def type_number(text: str) -> int:
    """The number of the record type of a text, in letters of either case: its mnemonic, or `TYPE` and the number (RFC 3597,
    5).

    >>> type_number("aaaa"), type_number("TYPE257")
    (28, 257)
    >>> type_number("quad")
    Traceback (most recent call last):
    ...
    fuzsbanel.Refusal: 21: a text that is no record type
    """
    return asked("type_number", text)


def type_text(record_type: int) -> str:
    """The mnemonic of the record type of a number, else `TYPE` and the number.

    >>> type_text(6), type_text(257)
    ('SOA', 'TYPE257')
    """
    return filled(LONGEST, "type_text", record_type).decode()


def class_number(text: str) -> int:
    """The number of the class of a text, in letters of either case: its mnemonic, `*` for ANY, or `CLASS` and the number.

    >>> class_number("in"), class_number("*"), class_number("CLASS32")
    (1, 255, 32)
    >>> class_number("internet")
    Traceback (most recent call last):
    ...
    fuzsbanel.Refusal: 37: a text that names no class, or no response code
    """
    return asked("class_number", text)


def class_text(class_: int) -> str:
    """The mnemonic of the class of a number, else `CLASS` and the number.

    >>> class_text(254), class_text(32)
    ('NONE', 'CLASS32')
    """
    return filled(LONGEST, "class_text", class_).decode()


def code_number(text: str) -> int:
    """The number of the response code of a text: its name, in letters of either case, or the number.

    >>> code_number("NXDOMAIN"), code_number("BADVERS"), code_number("11")
    (3, 16, 11)
    """
    return asked("code_number", text)


def code_text(code: int) -> str:
    """The name of the response code of a number, else the number.

    >>> code_text(5), code_text(16), code_text(11)
    ('Refused', 'BADSIG', '11')
    """
    return filled(LONGEST, "code_text", code).decode()
