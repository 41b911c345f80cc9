"""Updates to be measured: of a zone `example.` whose names have an address each, with records of one sort."""

START = "@ 3600 SOA ns hostmaster 1 2 3 4 5\n@ NS ns\n"

IN, NONE, ANY = "0001", "00FE", "00FF"
A, CNAME, ALL = "0001", "0005", "00FF"


def update(asked, changed, records):
    """An update of `example.` with so many prerequisites and changes, in hexadecimal."""
    return f"000728000001{asked:04X}{changed:04X}0000" + "076578616D706C6500" + "00060001" + records


EMPTY = update(0, 0, "")


def address(number):
    return f"0A{number:06X}"


def dotted(number):
    return f"10.{number >> 16}.{number >> 8 & 255}.{number & 255}"


def record(owner, kind, of_class, ttl=0, data=""):
    label = owner.encode().hex()
    return f"{len(owner):02x}{label}C00C{kind}{of_class}{ttl:08X}{len(data) // 2:04X}{data}"


def old(number):
    return f"h{number:05}"


def new(number):
    return f"n{number:05}"


def zone(names):
    """The text of the zone with so many names."""
    return START + "".join(f"{old(n)} 300 A {dotted(n)}\n" for n in range(names))


def one_set(records):
    """Further lines, of one name with so many addresses."""
    return "".join(f"one 300 A {dotted(n)}\n" for n in range(records))


# Each sort: whether its records are prerequisites, a record by its number, and whether one name has as many addresses.
KINDS = {
    "adds an address to a new name": (False, lambda n: record(new(n), A, IN, 60, address(n)), False),
    "adds an address to one name": (False, lambda n: record("one", A, IN, 60, address(n)), False),
    "renews an address": (False, lambda n: record(old(n), A, IN, 60, address(n)), False),
    "adds a CNAME": (False, lambda n: record(new(n), CNAME, IN, 60, "C00C"), False),
    "deletes an address": (False, lambda n: record(old(n), A, NONE, 0, address(n)), False),
    "deletes a set": (False, lambda n: record(old(n), A, ANY), False),
    "deletes a name": (False, lambda n: record(old(n), ALL, ANY), False),
    "asks for a name in use": (True, lambda n: record(old(n), ALL, ANY), False),
    "asks for a set by value": (True, lambda n: record(old(n), A, IN, 0, address(n)), False),
    "asks for one set by value": (True, lambda n: record("one", A, IN, 0, address(n)), True),
}


def of_kind(name, records):
    """The update with so many records of a sort, and the further lines of its zone."""
    is_asked, made, has_one_set = KINDS[name]
    asked = records if is_asked else 0
    return update(asked, records - asked, "".join(made(n) for n in range(records))), one_set(records) if has_one_set else ""


# owners of one label, and of 120: the second begin at their last 119 labels, which the first record of a message spells
DEEP = 119


def owner_text(label, is_deep):
    return label + (".a" * DEEP if is_deep else "")


def owner_bytes(label, is_deep, is_first):
    begun = f"{len(label):02x}{label.encode().hex()}"
    if not is_deep:
        return begun + "C00C"
    return begun + ("0161" * DEEP + "C00C" if is_first else f"C0{25 + 1 + len(label):02X}")


def of_owner(owner, kind, of_class, ttl, data):
    return f"{owner}{kind}{of_class}{ttl:08X}{len(data) // 2:04X}{data}"


def shape(is_asked, of_class, ttl, is_one_set, is_deep, is_there):
    """The lines of a zone, and an update of it: so many records of a class for one set, or each for its own."""
    def made(count):
        labels = ["h00000" if is_one_set else old(n) for n in range(count)]
        lines = [f"{owner_text(label, is_deep)} 300 A {dotted(n)}\n" for n, label in enumerate(labels)]
        records = [of_owner(owner_bytes(label, is_deep, n == 0), A, of_class, ttl, address(n)) for n, label in enumerate(labels)]
        asked = count if is_asked else 0
        return "".join(lines) if is_there else "", update(asked, count - asked, "".join(records))
    return made


def in_turn(count):
    """The lines of one set of so many addresses, and as many updates of it, which delete one and add another in turn."""
    owner = owner_bytes("h00000", False, True)
    def change(n):
        return of_owner(owner, A, IN, 60, address(count + n)) if n % 2 else of_owner(owner, A, NONE, 0, address(n))
    lines = "".join(f"h00000 300 A {dotted(n)}\n" for n in range(count))
    return lines, update(0, count, "".join(change(n) for n in range(count)))


# each shape: a function from the number of records
SHAPES = {
    "asks for one set by value": shape(True, IN, 0, True, False, True),
    "asks for one set of an owner of 120 labels by value": shape(True, IN, 0, True, True, True),
    "asks for many sets by value": shape(True, IN, 0, False, False, True),
    "asks for many sets of owners of 120 labels by value": shape(True, IN, 0, False, True, True),
    "adds to one set": shape(False, IN, 60, True, False, False),
    "adds to many sets": shape(False, IN, 60, False, False, False),
    "deletes the data of one set": shape(False, NONE, 0, True, False, True),
    "renews the data of one set": shape(False, IN, 60, True, False, True),
    "deletes and adds in turn in one set": in_turn,
}
