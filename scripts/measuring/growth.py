"""Whether the cost of an input grows as its size does, and what zone checkers take for the same text."""
import os
import shutil
import sys
from concurrent.futures import ThreadPoolExecutor

import dearest
import messages
import updates
import zones
from counting import instructions, most_bytes, of_one, seconds

PARTS = ["text", "messages", "updates", "dearest", "checkers"]
GOAL = 2.3

# each shape of message: its name, the size of the smaller one in bytes, and the message of a size
READ = [
    ("labels and pointers", 32, messages.chained),
    ("labels of 16 letters and pointers", 32, messages.chained_16_),
    ("bare pointers", 32, messages.bare),
    ("long names", 32, messages.plain),
    ("long names by pointer", 32, messages.pointed),
    ("short names", 32, messages.single),
    ("pointers to each label of long names", 32, messages.into_labels),
]
WRITTEN = [
    ("distinct owners", 8, messages.owners),
    ("distinct owners", 32, messages.owners),
    ("siblings", 8, messages.siblings),
    ("siblings", 32, messages.siblings),
    ("long names", 8, messages.plain),
    ("long names", 32, messages.plain),
    ("labels and pointers", 32, messages.chained),
    ("bare pointers", 32, messages.bare),
    ("long names that differ in the last label", 32, messages.last_differs),
]

# the other checkers, each by the words before the path of the text
CHECKERS = [["named-checkzone", "example."], ["kzonecheck", "-o", "example."], ["ldns-read-zone"]]
SIDE_BY_SIDE = [
    ("one set of 40,000", 40_000, zones.addresses),
    ("100,000 owners in order", 100_000, zones.in_order),
    ("100,000 owners in order, after the last", 100_000, zones.after_the_last),
    ("100,000 owners at random", 100_000, zones.at_random),
]
RUNS = 7
# how many of the dearest messages are shown, of those that are read and of those that are written
SHOWN = 4


def line(shape, sizes, counts, memory=None):
    """Prints a row of the table, and answers whether the shape keeps the goal."""
    ratio = counts[1] / counts[0]
    peaks = f"{memory[0]:.1f}, {memory[1]:.1f}" if memory else "-"
    print(f"| {shape} | {sizes[0]:,} | {counts[0]:,} | {counts[1]:,} | {ratio:.2f} | {peaks} |", flush=True)
    return ratio <= GOAL


def of_zone(program, size, make):
    """The bytes of a text, the instructions of a run over it, and how many bytes it had at once for each."""
    made = make(size)
    text, words = made if isinstance(made, tuple) else (made, [])
    given, words = text.encode(), ["zone", "-", *words]
    count = instructions(program, words, given)[0] - instructions(program, ["zone", "-"], b"$ORIGIN .\n")[0]
    size = len(given) + sum(len(word) for word in words)
    return size, count, most_bytes(program, words, given) / size


def of_update(program, kind, size):
    """The instructions of an update beyond those of an empty one."""
    message, more = updates.of_kind(kind, size)
    text = (updates.zone(size) + more).encode()
    return instructions(program, ["apply", "example.", message], text)[0] - instructions(program, ["header"], b"")[0]


def each(measured, shapes):
    """What is measured of each shape, in their order. A count is the same beside others, so all cores count."""
    with ThreadPoolExecutor(os.cpu_count()) as pool:
        yield from zip(shapes, pool.map(lambda shape: measured(*shape), shapes))


def measure_zones(program):
    def both(_, size, make):
        return [of_zone(program, size * twice, make) for twice in (1, 2)]

    right = True
    for (name, *_), ((bytes_, one, low), (_, two, high)) in each(both, zones.SHAPES):
        right = line(f"text: {name}", [bytes_], [one, two], [low, high]) and right
    return right


def measure_messages(program):
    def both(what, _, size, make):
        return [of_one(program, what, make(twice * size * 1024 - 4), 2) for twice in (1, 2)]

    shapes = [("read", *shape) for shape in READ] + [("write", *shape) for shape in WRITTEN]
    right = True
    for (what, name, size, make), counts in each(both, shapes):
        right = line(f"{what}: {name}", [len(make(size * 1024 - 4))], counts) and right
    return right


def measure_updates(program):
    def both(kind):
        return [of_update(program, kind, size) for size in (1_000, 2_000)]

    right = True
    for (kind,), counts in each(both, [(kind,) for kind in updates.KINDS]):
        right = line(f"apply: {kind}", [len(updates.of_kind(kind, 1_000)[0]) // 2], counts) and right
    return right


def commands(program, parser, path):
    """The command of each checker that is there, and the text that it reads in place of a path."""
    yield "dnsmsg zone", [program, "zone", "-"], path
    yield "Parser::parse", [parser], path
    for words in CHECKERS:
        if shutil.which(words[0]):
            yield words[0], [*words, path], None
        else:
            print(f"measure: {words[0]} is not installed", file=sys.stderr)


def side_by_side(program, parser, folder):
    """Prints the seconds of each checker, and their part of ours."""
    path = f"{folder}/zone"
    checkers = list(commands(program, parser, path))
    print("| Zone | " + " | ".join(name for name, *_ in checkers) + " |")
    print("|---" * (1 + len(checkers)) + "|", flush=True)
    for name, size, make in SIDE_BY_SIDE:
        with open(path, "w", encoding="utf-8") as file:
            file.write(make(size))
        runs = [[seconds(command, given) for _, command, given in checkers] for _ in range(RUNS)]
        least = [min(times) for times in zip(*runs)]
        cells = (f"{took:.3f} ({took / least[0][0]:.2f})" + (", refused" if status else "") for took, status in least)
        print(f"| {name} | " + " | ".join(cells) + " |", flush=True)


def measure(program, loop, parser, folder, parts):
    """Prints these parts; answers 1 where a shape passes the goal."""
    right = True
    if set(parts) - {"dearest", "checkers"}:
        print("| Shape | Bytes | Instructions | Of twice as much | Ratio | Bytes had for each byte |")
        print("|---|---|---|---|---|---|", flush=True)
    if "text" in parts:
        right = measure_zones(program) and right
    if "messages" in parts:
        right = measure_messages(loop) and right
    if "updates" in parts:
        right = measure_updates(program) and right
    if "dearest" in parts:
        right = dearest.measure(each, of_one, loop, SHOWN) and right
    if "checkers" in parts:
        side_by_side(program, parser, folder)
    return 0 if right else 1
