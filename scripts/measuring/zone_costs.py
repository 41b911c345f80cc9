"""What a record of a zone costs."""
import random

from counting import BELOW, BETWEEN, built, copy_commit, copy_kept, instructions

HEAD = "$ORIGIN example.\n@ 3600 SOA ns hostmaster 1 2 3 4 5\n"


def in_order(count):
    """The text of a zone of an SOA and so many addresses, in the order of their owners."""
    return HEAD + "".join(f"h{n:05} 300 A 10.{n >> 16}.{n >> 8 & 255}.{n & 255}\n" for n in range(count))


def mixed(count):
    """As many records of six types, their owners at random and interleaved, as a real zone has them."""
    r = random.Random(84)
    data = {
        "A": lambda n: f"10.{n >> 16}.{n >> 8 & 255}.{n & 255}",
        "AAAA": lambda n: f"2001:db8::{n >> 16:x}:{n & 0xFFFF:x}",
        "MX": lambda n: f"{n % 50} mail{n % 97}",
        "TXT": lambda n: f'"v=spf1 include:_spf{n}.example.net ~all"',
        "NS": lambda n: f"ns{n % 7}.example.net.",
    }
    lines = []
    for n in range(count):
        if n % 6 == 5:
            lines.append(f"alias{n:05} 300 CNAME h{r.randrange(count):05}\n")
        else:
            kind = list(data)[n % 6]
            lines.append(f"h{r.randrange(count):05} 300 {kind} {data[kind](n)}\n")
    return HEAD + "".join(lines)


# each zone: how many records it has besides its SOA, and its text by that
ZONES = {
    "zone1000": (1_000, in_order),
    "zone10000": (10_000, in_order),
    "mixed1000": (1_000, mixed),
    "mixed10000": (10_000, mixed),
}


def measure(root, copy, names):
    """Prints what a record costs of each of these zones, or of each of all, by a copy of the last commit."""
    copy_commit(root, copy)
    copy_kept(root, copy, [*BELOW, *BETWEEN, "commands", "dnsmsg"])
    program = built(f"{copy}/crates/dnsmsg", "dnsmsg", ["header"])
    print("zone | instructions a record", flush=True)
    for name, (count, text) in ZONES.items():
        if not names or name in names:
            count_of, _ = instructions(program, ["zone", "-"], text(count).encode())
            print(name, "|", f"{count_of / count:.0f}", flush=True)
