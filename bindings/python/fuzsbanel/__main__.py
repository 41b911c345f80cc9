"""Reads messages in hexadecimal, one a line, and prints what each call makes of them."""
import sys

from . import Query, Refusal, check, cut, data_text, name, options, text, walk
from .message import TYPE_OPT

TYPE_MX = 15


def show(message: bytes) -> None:
    """Prints what each call makes of a message."""
    end = check(message)
    print(text(message), end="")
    for item in walk(message):
        owner = name(item.owner, 0)
        if isinstance(item, Query):
            print("question", owner, "type", item.query_type, "class", item.class_)
            continue
        print("record", owner, "type", item.record_type, "class", item.class_, "ttl", item.ttl, "data", item.data.hex())
        if item.record_type == TYPE_OPT:
            for option in options(item.data):
                print("option", option.code, option.data.hex())
            continue
        print("text", data_text(message, item.name))
        if item.record_type == TYPE_MX:
            print("exchange", name(message, item.data_place + 2))
    print(cut(message[:end], 512).hex())


def main() -> None:
    for line in sys.stdin:
        try:
            show(bytes.fromhex(line))
        except Refusal as refusal:
            print("refused", refusal.number)


if __name__ == "__main__":
    main()
