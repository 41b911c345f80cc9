"""Zone texts to be measured, each by its size: what could cost more than its bytes do."""
import random

START = "$ORIGIN example.\n@ 3600 SOA ns.example.net. hostmaster 1 2 3 4 5\n@ 3600 NS ns.example.net.\n"


def address(number):
    return f"10.{number >> 16}.{number >> 8 & 255}.{number & 255}"


def one_set(owner, data):
    """One set of so many records."""
    return lambda size: START + "".join(f"{owner} 300 {data(n)}\n" for n in range(size))


def of_owners(order):
    """As many owners of an address each, in an order."""
    return lambda size: START + "".join(f"h{n:06} 300 A {address(n)}\n" for n in order(size))


def shuffled(size):
    numbers = list(range(size))
    random.Random(1).shuffle(numbers)
    return numbers


def from_both_ends(size):
    return [n // 2 if n % 2 == 0 else size - 1 - n // 2 for n in range(size)]


addresses = one_set("one", lambda n: f"A {address(n)}")
in_order = of_owners(range)
at_random = of_owners(shuffled)


def after_the_last(size):
    """Owners in order, each below one that came first."""
    return START + "ns 3600 A 192.0.2.1\n" + in_order(size)[len(START):]


def renewed(size):
    """A set whose second half has the addresses of the first with another TTL."""
    return START + "".join(f"one {300 + n // (size // 2)} A {address(n % (size // 2))}\n" for n in range(size))


def in_turn(size):
    """A set of addresses, each followed by one name's address, which has another TTL each time."""
    return START + "".join(f"h{n:06} 300 A {address(n)}\none {n} A 10.0.0.1\n" for n in range(size // 2))


def items(size):
    return START + "one 300 TXT " + "a " * size + "\n"


def parentheses(size):
    return START + "one 300 TXT (" + "a\n" * size + ")\n"


def comment(size):
    return START + ";" + "x" * size + "\n"


def item(size):
    """An item of so many letters, which no name holds."""
    return START + "a" * size + " 300 A 10.0.0.1\n"


def quoted(size):
    return START + 'one 300 TXT "' + "a" * size + '"\n'


def digits(size):
    return START + "one " + "0" * size + "1 A 10.0.0.1\n"


def blanks(size):
    return START + " " * size + "\n" * size


def directives(size):
    return START + "".join(f"$ORIGIN o{n}.example.\n$TTL {n}\n" for n in range(size // 2))


# how many texts are included, one in the other
DEPTH = 200


def included(size):
    """Texts each of which has addresses and includes the next, as words NAME=TEXT, and the text that includes the first."""
    lines = size // DEPTH
    words = []
    for depth in range(DEPTH):
        text = "".join(f"h{depth * lines + n:06} 300 A {address(n)}\n" for n in range(lines))
        words.append(f"f{depth}={text}" + (f"$INCLUDE f{depth + 1}\n" if depth + 1 < DEPTH else ""))
    return START + "$INCLUDE f0\n", words


LONG_OWNER = ".".join("abcdefghijklmnopqrstuvwxyz"[n % 26] for n in range(126)) + "."
LONG_SERVER = ".".join(letter * 63 for letter in "abc")

RECORDS, LETTERS = 10_000, 1_000_000

# each shape: its name, how many records or letters the smaller of its two texts has, and the text of a size
SHAPES = [
    ("one set: addresses", RECORDS, addresses),
    ("one set: texts with one front", RECORDS, one_set("one", lambda n: f"TXT {'a' * 200}{n}")),
    ("one set: servers of 220 bytes", RECORDS, one_set("one", lambda n: f"NS {LONG_SERVER}.n{n:06}.example.")),
    ("one set: an owner of 126 labels", RECORDS, one_set(LONG_OWNER, lambda n: f"A {address(n)}")),
    ("owners in order", RECORDS, in_order),
    ("owners in order, after the last of all", RECORDS, after_the_last),
    ("owners backward", RECORDS, of_owners(lambda size: range(size - 1, -1, -1))),
    ("owners at random", RECORDS, at_random),
    ("owners from both ends in turn", RECORDS, of_owners(from_both_ends)),
    ("each record of a set renewed", RECORDS, renewed),
    ("one record renewed among owners", RECORDS, in_turn),
    ("items of one record", 10_000, items),
    ("lines of one record", 10_000, parentheses),
    ("a comment", LETTERS, comment),
    ("an item", LETTERS, item),
    ("a quoted text", LETTERS, quoted),
    ("a number", LETTERS, digits),
    ("blanks and empty lines", LETTERS, blanks),
    ("origins and TTLs", RECORDS, directives),
    ("texts that include one another", RECORDS, included),
]
