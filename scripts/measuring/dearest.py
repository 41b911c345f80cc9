"""Messages of 64 KiB that are meant to be dear, byte for byte: some shapes that were found so, and a seeded search."""
import random
import struct
from functools import partial

import messages

SIZE = 64 * 1024
SEARCHED = 32
# the most instructions for each byte of a message
GOALS = {"read": 250, "write": 300}

FOUND = [messages.last_differs, messages.into_labels, messages.chained, messages.bare, messages.plain, messages.owners]

# what a shape is made of: how long labels are, how many a name has at most before its end, which of them differ from name
# to name, by how many letters, and where the pointer leads that ends it
LETTERS = [1, 1, 1, 2, 4, 16, 63]
LABELS = [1, 2, 8, 16, 63, 126]
DIFFERING = ["none", "the first", "the last", "the middle one", "each"]
ALPHABETS = [2, 26, 200]
TARGETS = ["nowhere", "the name before", "the first name", "a name", "a label of the name before", "a label"]

# the bytes of a name without its root, and where a pointer can lead (RFC 1035, 2.3.4 and 4.1.4)
MOST_LABELS = 254
REACH = 16384


def own_labels(chosen, number, letters, count, differing, alphabet):
    """The labels of the name of this number that it doesn't take over."""
    differs = {"the first": [0], "the last": [count - 1], "the middle one": [count // 2], "each": range(count), "none": []}[differing]
    for i in range(count):
        label = bytearray(b"a" * letters)
        if i in differs:
            label[-1] = 32 + (number if differing != "each" else chosen.randrange(alphabet)) % alphabet
            if letters > 1:
                label[0] = 32 + number // alphabet % alphabet
        yield bytes(label)


def searched(seed):
    """The words for a shape of this seed, and its message."""
    chosen = random.Random(seed)
    letters, alphabet = chosen.choice(LETTERS), chosen.choice(ALPHABETS)
    count = chosen.choice([count for count in LABELS if count * (1 + letters) <= MOST_LABELS])
    differing, target = chosen.choice(DIFFERING), chosen.choice(TARGETS)
    # of each name that a pointer reaches, where labels begin, and how many bytes labels have from there on
    names = []

    def led_to():
        if target == "nowhere" or not names:
            return None, 0
        name = names[0] if "first" in target else names[-1] if "before" in target else chosen.choice(names)
        return chosen.choice(name) if "label" in target else name[0]

    def owner(number, at):
        own = b"".join(bytes([letters]) + label for label in own_labels(chosen, number, letters, count, differing, alphabet))
        place, after = led_to()
        if len(own) + after > MOST_LABELS:
            place, after = None, 0
        if at + len(own) < REACH:
            names.append([(at + i, after + len(own) - i) for i in range(0, len(own), 1 + letters)])
        return own + (b"\0" if place is None else struct.pack(">H", 0xC000 + place))

    labels = "label" if count == 1 else "labels"
    words = f"{count} {labels} of {letters} a name, {differing} of {alphabet} kinds, then {target}"
    return words, messages.questions(SIZE - 4, owner)


def all_shapes():
    """The words for each shape, and its message."""
    for make in FOUND:
        yield (make.__doc__ or make.__name__).rstrip("."), make(SIZE - 4)
    yield from map(searched, range(SEARCHED))


def costs(of_one, program, shape):
    """How many instructions a byte of the message costs to read and to write; nothing where it is refused."""
    _, message = shape
    counts = [of_one(program, what, message, 1) for what in GOALS]
    return [count and count / len(message) for count in counts]


def measure(each, of_one, program, shown):
    """Prints the shapes that cost most to read and to write, and answers whether all keep the goals."""
    shapes = [(shape,) for shape in all_shapes()]
    rows = [(*shape, *counts) for (shape,), counts in each(partial(costs, of_one, program), shapes)]
    print(f"| Of {len(rows)} messages of 64 KiB the dearest | Bytes | Instructions a byte |")
    print("|---|---|---|")
    right = True
    for at, (what, goal) in enumerate(GOALS.items(), 2):
        dearest = sorted((row for row in rows if row[at]), key=lambda row: -row[at])
        right = dearest[0][at] <= goal and right
        for row in dearest[:shown]:
            print(f"| {what}: {row[0]} | {len(row[1]):,} | {row[at]:.0f} |", flush=True)
    return right
