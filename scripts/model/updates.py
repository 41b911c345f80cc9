"""Updates, applied to the sets of a zone (RFC 2136, 3)."""
from data import ANY, ANY_CLASS, CNAME, NONE_CLASS, NS, OPT, SIG, SOA, same_data
from names import folded, is_zone_of
from zone_text import put

WELL_KNOWN_SERVICES = 11


class Code(Exception):
    """The code that an update is answered with."""

    def __init__(self, name):
        super().__init__(name)
        self.name = name


def expect(holds, code):
    if not holds:
        raise Code(code)


def is_meta(kind):
    return 128 <= kind <= 255


def is_understood(message):
    """Whether all types are ordinary, or those of servers and aliases, or ANY where that may be."""
    def ordinary(kind):
        return not is_meta(kind) and kind not in (0, SOA, WELL_KNOWN_SERVICES, SIG, OPT)

    def anything(record, classes):
        return record.data.type == ANY and record.dns_class in classes

    prerequisites, changes, _ = message.sections
    return all(ordinary(it.data.type) or anything(it, (ANY_CLASS, NONE_CLASS)) for it in prerequisites) and all(
        ordinary(it.data.type) or anything(it, (ANY_CLASS,)) for it in changes)


class Server:
    """A zone that takes an update."""

    def __init__(self, origin, dns_class, sets):
        self.origin, self.dns_class = origin, dns_class
        self.sets = {key: list(records) for key, records in sets.items()}

    def has(self, owner, kind=ANY):
        return any(records and key[0] == owner and kind in (ANY, key[1]) for key, records in self.sets.items())

    def is_asked(self, questions):
        """The zone section."""
        expect(len(questions) == 1 and questions[0].type == SOA, "FormErr")
        expect(folded(questions[0].name) == folded(self.origin) and questions[0].dns_class == self.dns_class, "NotAuth")

    def prerequisites(self, records):
        by_value = {}
        for it in records:
            owner, kind = folded(it.name)[1], it.data.type
            expect(it.ttl == 0, "FormErr")
            expect(is_zone_of(self.origin, it.name), "NotZone")
            if it.dns_class in (ANY_CLASS, NONE_CLASS):
                expect(it.data.empty, "FormErr")
                codes = ("NXDomain", "NXRRSet") if it.dns_class == ANY_CLASS else ("YXDomain", "YXRRSet")
                expect(self.has(owner, kind) == (it.dns_class == ANY_CLASS), codes[kind != ANY])
            else:
                expect(it.dns_class == self.dns_class, "FormErr")
                by_value.setdefault((owner, kind), []).append(it.data)
        for key, asked in by_value.items():
            there = [it.data for it in self.sets.get(key, [])]
            expect(is_part(asked, there) and is_part(there, asked), "NXRRSet")

    def prescan(self, records):
        for it in records:
            expect(is_zone_of(self.origin, it.name), "NotZone")
            meta = is_meta(it.data.type)
            if it.dns_class == self.dns_class:
                expect(not meta, "FormErr")
            elif it.dns_class == ANY_CLASS:
                expect(it.ttl == 0 and it.data.empty and (not meta or it.data.type == ANY), "FormErr")
            else:
                expect(it.dns_class == NONE_CLASS and it.ttl == 0 and not meta, "FormErr")

    def change(self, record):
        owner, kind = folded(record.name)[1], record.data.type
        if record.dns_class == self.dns_class:
            self.add(owner, kind, record)
        elif record.dns_class == ANY_CLASS:
            for key in [key for key in self.sets if key[0] == owner and kind in (ANY, key[1])]:
                if owner != folded(self.origin)[1] or key[1] not in (SOA, NS):
                    del self.sets[key]
        else:
            there = self.sets.get((owner, kind), [])
            is_last_server = owner == folded(self.origin)[1] and kind == NS and len(there) == 1
            if kind != SOA and not is_last_server:
                there[:] = [it for it in there if not same_data(it.data, record.data)]

    def add(self, owner, kind, record):
        others = any(records and key[0] == owner and key[1] != CNAME for key, records in self.sets.items())
        if kind == CNAME and not others:
            self.sets[owner, kind] = [record]
        elif kind != CNAME and not self.has(owner, CNAME):
            put(self.sets.setdefault((owner, kind), []), record)


def is_part(some, all_data):
    return all(any(same_data(one, other) for other in all_data) for one in some)


def applied(origin, dns_class, sets, message):
    """The name of the code, and the sets then."""
    server = Server(origin, dns_class, sets)
    try:
        expect(is_understood(message), "NotImp")
        server.is_asked(message.questions)
        prerequisites, changes, _ = message.sections
        server.prerequisites(prerequisites)
        server.prescan(changes)
        for it in changes:
            server.change(it)
    except Code as code:
        return code.name, sets
    return "NoError", {key: records for key, records in server.sets.items() if records}
