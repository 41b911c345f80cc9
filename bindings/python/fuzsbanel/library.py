"""The shared object: its calls, the structures that cross, and what each call hands over."""
import ctypes
import operator
import os

from .refusal import Refusal

HERE = os.path.dirname(os.path.realpath(__file__))
BUILT = os.path.normpath(os.path.join(HERE, "../../c/build/libfuzsbanel.so"))
INSTALLED = os.path.join(HERE, "libfuzsbanel.so")


def loaded(path: str) -> ctypes.CDLL:
    """The shared object at a path.

    >>> loaded("/nowhere.so")
    Traceback (most recent call last):
    ...
    ImportError: no /nowhere.so: run `rt lib` in crates/capi and `make -C bindings/c`, or name another by FUZSBANEL_LIB
    """
    if not os.path.exists(path):
        raise ImportError(f"no {path}: run `rt lib` in crates/capi and `make -C bindings/c`, or name another by FUZSBANEL_LIB")
    return ctypes.CDLL(path)


LIBRARY = loaded(os.environ.get("FUZSBANEL_LIB", INSTALLED if os.path.exists(INSTALLED) else BUILT))

NO_ROOM = -100


class HeaderFields(ctypes.Structure):
    _fields_ = [
        ("id", ctypes.c_uint16),
        ("queries", ctypes.c_uint16),
        ("answers", ctypes.c_uint16),
        ("authorities", ctypes.c_uint16),
        ("additionals", ctypes.c_uint16),
        ("opcode", ctypes.c_uint8),
        ("rcode", ctypes.c_uint8),
        ("response", ctypes.c_bool),
        ("authoritative", ctypes.c_bool),
        ("truncated", ctypes.c_bool),
        ("recursion_desired", ctypes.c_bool),
        ("recursion_available", ctypes.c_bool),
        ("authentic_data", ctypes.c_bool),
        ("checking_disabled", ctypes.c_bool),
    ]


class ResponseFields(ctypes.Structure):
    _fields_ = [("negative_ttl", ctypes.c_uint32), ("max_payload", ctypes.c_uint16), ("has_negative_ttl", ctypes.c_bool)]


class QueryFields(ctypes.Structure):
    _fields_ = [("name", ctypes.c_size_t), ("query_type", ctypes.c_uint16), ("class_", ctypes.c_uint16)]


class RecordFields(ctypes.Structure):
    _fields_ = [
        ("name", ctypes.c_size_t),
        ("data", ctypes.c_size_t),
        ("ttl", ctypes.c_uint32),
        ("record_type", ctypes.c_uint16),
        ("class_", ctypes.c_uint16),
        ("data_len", ctypes.c_uint16),
    ]


class ItemFields(ctypes.Structure):
    _fields_ = [
        ("record", RecordFields),
        ("name", ctypes.c_size_t),
        ("name_len", ctypes.c_uint8),
        ("section", ctypes.c_uint8),
    ]


class Room(ctypes.Structure):
    _fields_ = [("items", ctypes.c_size_t), ("names", ctypes.c_size_t)]


class OptionFields(ctypes.Structure):
    _fields_ = [("data", ctypes.c_size_t), ("code", ctypes.c_uint16), ("data_len", ctypes.c_uint16)]


class ZoneHandle(ctypes.Structure):
    _fields_ = [("at", ctypes.c_void_p), ("is_open", ctypes.c_bool)]


class TransferPlace(ctypes.Structure):
    _fields_ = [
        ("index", ctypes.c_size_t),
        ("record_type", ctypes.c_uint16),
        ("kind", ctypes.c_uint8),
        ("is_unknown", ctypes.c_uint8),
        ("is_absolute", ctypes.c_uint8),
        ("name_len", ctypes.c_uint8),
        ("name", ctypes.c_uint8 * 255),
    ]


class IncludedFields(ctypes.Structure):
    _fields_ = [("name_len", ctypes.c_size_t), ("text_len", ctypes.c_size_t)]


class FaultFields(ctypes.Structure):
    _fields_ = [(field, ctypes.c_size_t) for field in ("line", "column", "name_len", "words_len")]


def number(value: int, type_: type) -> int:
    """A number that a type holds, where ctypes would drop the upper bits of any other.

    >>> cut(bytes(12), -1)
    Traceback (most recent call last):
    ...
    ValueError: -1 is no number of 16 bits
    >>> cut(bytes(12), 65536)
    Traceback (most recent call last):
    ...
    ValueError: 65536 is no number of 16 bits
    >>> create(-1, "example.", "www 300 A 192.0.2.1")
    Traceback (most recent call last):
    ...
    ValueError: -1 is no number of 16 bits
    """
    bits = 8 * ctypes.sizeof(type_)
    if not 0 <= operator.index(value) < 1 << bits:
        raise ValueError(f"{value} is no number of {bits} bits")
    return value


# a text and bytes cross as a pointer and a length; the types of the others are those of C
TEXT, BYTES, ROOM = [str, ctypes.c_size_t], [bytes, ctypes.c_size_t], [ctypes.c_char_p, ctypes.c_size_t]
OUT = [ctypes.c_char_p, ctypes.c_size_t, ctypes.POINTER(ctypes.c_size_t)]
U16, EDNS, PLACE = [ctypes.c_uint16], [ctypes.c_bool], [ctypes.c_size_t]
HANDLE = [ctypes.POINTER(ZoneHandle)]
INCLUDED = [ctypes.POINTER(IncludedFields)] + PLACE + BYTES
CALLS = {
    "check": BYTES,
    "cut": BYTES + U16 + OUT,
    "text": BYTES + OUT,
    "header": BYTES + [ctypes.POINTER(HeaderFields)],
    "response": BYTES + [ctypes.POINTER(ResponseFields)],
    "build_query": U16 + TEXT + U16 + U16 + [ctypes.c_bool] + U16 + OUT,
    "build_notify": U16 + TEXT + OUT,
    "build_response": BYTES + U16 + [ctypes.c_bool] * 2 + TEXT * 3 + U16 + [ctypes.c_bool] + OUT,
    "type_number": TEXT,
    "type_text": U16 + OUT,
    "class_number": TEXT,
    "class_text": U16 + OUT,
    "code_number": TEXT,
    "code_text": U16 + OUT,
    "query": BYTES + PLACE + [ctypes.POINTER(QueryFields)],
    "record": BYTES + PLACE + [ctypes.POINTER(RecordFields)],
    "option": BYTES + PLACE + [ctypes.POINTER(OptionFields)],
    "name": BYTES + PLACE + OUT,
    "data_text": BYTES + PLACE + OUT,
    "name_wire": TEXT + OUT,
    "data_wire": U16 + TEXT + OUT,
    "wire_text": U16 + BYTES + OUT,
    "walk": BYTES + [ctypes.POINTER(ItemFields)] + PLACE + ROOM + [ctypes.POINTER(Room)],
    "zone": TEXT + TEXT + OUT,
    "zone_check": TEXT + TEXT + INCLUDED + ROOM * 2 + [ctypes.POINTER(FaultFields)],
    "apply": BYTES + TEXT + TEXT + OUT,
    "zone_open": TEXT + TEXT + INCLUDED + HANDLE + ROOM * 2 + [ctypes.POINTER(FaultFields)],
    "zone_update": HANDLE + BYTES + [ctypes.POINTER(ctypes.c_bool)],
    "zone_text": HANDLE + OUT,
    "zone_answer": HANDLE + BYTES + U16 + [ctypes.c_bool] + OUT,
    "zone_raise_serial": HANDLE,
    "zone_share": HANDLE * 2,
    "zone_serve_transfer": HANDLE + BYTES + [ctypes.POINTER(TransferPlace)] + OUT,
    "create": U16 + TEXT + TEXT + EDNS + OUT,
    "append": U16 + TEXT + TEXT + [ctypes.c_bool] + EDNS + OUT,
    "compare_and_swap": U16 + TEXT + TEXT + TEXT + EDNS + OUT,
    "delete_by_rdata": U16 + TEXT + TEXT + EDNS + OUT,
    "delete_rrset": U16 + TEXT + TEXT + U16 + EDNS + OUT,
    "delete_all": U16 + TEXT + TEXT + EDNS + OUT,
    "zone_transfer": U16 + TEXT + TEXT + OUT,
}
for word, types in CALLS.items():
    call = getattr(LIBRARY, "fuzsbanel_" + word)
    call.argtypes = [ctypes.c_char_p if type_ in (str, bytes) else type_ for type_ in types]
    call.restype = ctypes.c_int64
LIBRARY.fuzsbanel_zone_close.argtypes, LIBRARY.fuzsbanel_zone_close.restype = HANDLE, None
LIBRARY.fuzsbanel_version.argtypes, LIBRARY.fuzsbanel_version.restype = [], ctypes.c_uint32


def asked(word, *arguments) -> int:
    """The length or the place that a call answers.

    >>> check(memoryview(bytes.fromhex("00010100000100000000000001610000010001") + b"!").cast("H"))
    19
    >>> check("0001")
    Traceback (most recent call last):
    ...
    TypeError: fuzsbanel_check takes bytes, and not '0001'
    >>> build_query(1, b"www.example", 1)
    Traceback (most recent call last):
    ...
    TypeError: fuzsbanel_build_query takes a str, and not b'www.example'
    """
    crossing = []
    for argument in arguments:
        wanted = CALLS[word][len(crossing)]
        if wanted is str:
            if not isinstance(argument, str):
                raise TypeError(f"fuzsbanel_{word} takes a str, and not {argument!r:.60}")
            argument = argument.encode()
        elif wanted is bytes:
            if not isinstance(argument, (bytes, bytearray, memoryview)):
                raise TypeError(f"fuzsbanel_{word} takes bytes, and not {argument!r:.60}")
            argument = bytes(argument)
        crossing += [argument, len(argument)] if wanted in (str, bytes) else [argument]
    for value, type_ in zip(crossing, CALLS[word]):
        if type_ in (ctypes.c_uint16, ctypes.c_size_t):
            number(value, type_)
    answer = getattr(LIBRARY, "fuzsbanel_" + word)(*crossing)
    if answer < 0 and answer != NO_ROOM:
        raise Refusal(-answer)
    return answer


def filled(room, word, *arguments) -> bytes:
    """The bytes that a call writes: it is made with a buffer of so many bytes, and once more with what it needs."""
    needed = ctypes.c_size_t()
    while True:
        out = ctypes.create_string_buffer(room + 1)
        answer = asked(word, *arguments, out, room, ctypes.byref(needed))
        if answer != NO_ROOM:
            return out.raw[:answer]
        room = needed.value
