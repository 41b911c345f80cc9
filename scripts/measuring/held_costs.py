"""What an update of a zone that is held costs, one that is refused, and an answer, of zones of several sizes."""
import os

from counting import instructions
from updates import A, ALL, ANY, CNAME, IN, NONE, old, record, update, zone

SIZES = [1_000, 10_000, 100_000]
TIMES = 40

# What is updated stands in the middle of the zone.
HERE = old(500)
OUTSIDE = "0161026F6700" + A + IN + "0000003C" + "0004" + "0A000001"

# Each: the name, and the updates that are carried out in turn, which leave the zone as it was, with the sum of their codes.
UPDATES = {
    "adds a name, and deletes it": ([update(0, 1, record("new", A, IN, 60, "0A000001")), update(0, 1, record("new", ALL, ANY))], 0),
    "changes an address, and back": (
        [update(0, 2, record(HERE, A, ANY) + record(HERE, A, IN, 300, data)) for data in ("0A000009", "0A0001F4")], 0),
    "FormErr: no zone": (["00072800" + "0000" * 4], 1),
    "NXDomain: a name not in use": ([update(1, 0, record("none", ALL, ANY))], 3),
    "NotImp: an SOA": ([update(0, 1, record(HERE, "0006", ANY))], 4),
    "YXDomain: a name in use": ([update(1, 0, record(HERE, ALL, NONE))], 6),
    "YXRRSet: a set that is there": ([update(1, 0, record(HERE, A, NONE))], 7),
    "NXRRSet: a set that isn't": ([update(1, 0, record(HERE, CNAME, ANY))], 8),
    "NotAuth: another zone": (["000728000001000000000000" + "0161" + "00" + "00060001"], 9),
    "NotZone: a name outside": ([update(0, 1, OUTSIDE)], 10),
}

# What every zone has besides its names: an alias of one of them, a mail exchange, and a zone cut.
MORE = f"alias 300 CNAME {HERE}\nmail 300 MX 10 {HERE}\nchild 300 NS ns.child\nns.child 300 A 192.0.2.9\n"


def query(owner, kind):
    """A query for a set of a name below `example.`, in hexadecimal."""
    labels = "".join(f"{len(label):02x}{label.encode().hex()}" for label in owner.split("."))
    return "000901000001000000000000" + labels + "076578616D706C6500" + kind + IN


# Each: the name, and the query, and how many bytes its answer has.
QUERIES = {
    "an address": (query(HERE, A), 48),
    "an alias, and an address": (query("alias", A), 68),
    "an exchange, and its address": (query("mail", "000F"), 69),
    "a referral, with its glue": (query("a.child", A), 66),
    "NoError: no data": (query(HERE, "001C"), 82),
    "NXDomain: no name": (query("none", A), 80),
}


def counted(program, what, times, paths, lines, each):
    """Instructions of one call, of these messages and each zone, whose answers make up so much each time."""
    given = "\n".join(lines).encode()
    counts = []
    for path in paths:
        count, printed = instructions(program, [what, str(times), path], given, f"fuzsbanel_zone_{what}")
        if int(printed) != each * times:
            raise SystemExit(f"measure: {lines}: the answers make up {int(printed)} and not {each * times}")
        counts.append(round(count / times / len(lines)))
    return counts


def row(name, cells):
    print("|", " | ".join([name, *(f"{cell:,}" for cell in cells)]), "|", flush=True)


def measure(program, folder):
    """Prints the instructions of one update of each, and of one answer, of zones of so many names."""
    print("| |", " | ".join(f"{size:,} names" for size in SIZES), "|")
    print("|---" * (1 + len(SIZES)) + "|", flush=True)
    paths = []
    for size in SIZES:
        paths.append(os.path.join(folder, f"zone{size}"))
        with open(paths[-1], "w", encoding="utf-8") as file:
            file.write(zone(size) + MORE)
    for name, (lines, codes) in UPDATES.items():
        row(name, counted(program, "update", TIMES, paths, lines, codes))
    for name, (line, length) in QUERIES.items():
        row(name, counted(program, "answer", TIMES, paths, [line], length))
