"""What a server answers from the sets of a zone (RFC 1034, 4.3.2), and the bytes of it."""
from data import A, AAAA, ANY, CNAME, MX, NS, SOA, SRV
from messages import Edns, Message, Record, read_header, read_message
from names import Name, Refused, folded, is_zone_of
from updates import is_meta
from writing import written

DS = 43
NO_ERROR, FORM_ERR, SERV_FAIL, NX_DOMAIN, NOT_IMP, REFUSED, BAD_VERSION = 0, 1, 2, 3, 4, 5, 16
ALIASES = 11
QUERY = 0
LEAST, MOST = 512, 65535


def key(name):
    return folded(name)[1]


def parent(name):
    return Name(name.labels[1:], name.absolute)


class Zone:
    """The sets of a zone by owner, its labels in lower case, and type."""

    def __init__(self, origin, dns_class, sets):
        self.origin, self.dns_class = origin, dns_class
        self.sets = {owner_and_type: records for owner_and_type, records in sets.items() if records}

    def exists(self, name):
        """Something stands at it or below it."""
        labels = key(name)
        return any(owner[len(owner) - len(labels):] == labels for owner, _ in self.sets if len(owner) >= len(labels))

    def cut_over(self, kind, name):
        """The highest cut above it, or at it but for DS."""
        depth = len(self.origin.labels)
        lowest = parent(name) if kind == DS and len(name.labels) > depth else name
        for length in range(depth + 1, len(lowest.labels) + 1):
            end = Name(lowest.labels[len(lowest.labels) - length:], True)
            if (key(end), NS) in self.sets:
                return end
        return None

    def source(self, name):
        """Where its data stands: there, or at the asterisk below its closest encloser."""
        if self.exists(name):
            return name
        end = parent(name)
        while not self.exists(end) and key(end) != key(self.origin):
            end = parent(end)
        wildcard = Name((b"*", *end.labels), True)
        return wildcard if self.exists(wildcard) else None

    def records(self, owner, name, kind):
        """The records of a set as they are answered: of this owner, those that have data, of the least TTL of these."""
        there = [it for it in self.sets.get((key(name), kind), []) if not it.data.empty]
        ttl = min((it.ttl for it in there), default=0)
        return [Record(owner, self.dns_class, False, ttl, it.data) for it in there]

    def lookup(self, kind, name):
        """What there is: `outside`, `no name`, a `cut` and its name, an `alias` as a record, or the `data`."""
        if not is_zone_of(self.origin, name):
            return "outside", None
        if cut := self.cut_over(kind, name):
            return "cut", cut
        source = self.source(name)
        if source is None:
            return "no name", None
        if kind not in (CNAME, ANY) and (aliases := self.records(name, source, CNAME)):
            return "alias", aliases[0]
        kinds = sorted(it for owner, it in self.sets if owner == key(source)) if kind == ANY else [kind]
        return "data", [record for it in kinds for record in self.records(name, source, it)]

    def negative(self, name):
        """The SOA, its TTL no more than MINIMUM."""
        spelled = Name(name.labels[len(name.labels) - len(self.origin.labels):], True)
        return [it._replace(ttl=min(it.ttl, it.data.fields[6])) for it in self.records(spelled, self.origin, SOA)]

    def addresses(self, is_glued, kind, host):
        what, found = self.lookup(kind, host)
        if what == "cut":
            return self.records(host, host, kind) if is_glued else []
        return found if what == "data" else []

    def extras(self, is_glued, told, hosted):
        """The addresses of the hosts of these records, each set once, and none that is told already."""
        taken = {(key(it.name), it.data.type) for it in told}
        found = []
        for it in hosted:
            place = {NS: 0, MX: 1, SRV: 3}.get(it.data.type)
            for kind in (A, AAAA) if place is not None else ():
                host = it.data.fields[place]
                if (key(host), kind) not in taken:
                    taken.add((key(host), kind))
                    found += self.addresses(is_glued, kind, host)
        return found

    def answer(self, kind, name):
        """The code, whether it is authoritative, the three sections, and whether the last are those of a referral."""
        done, asked = [], set()
        while True:
            asked.add(key(name))
            what, found = self.lookup(kind, name)
            if what == "alias":
                done.append(found)
                name = found.data.fields[0]
                if len(done) > ALIASES or key(name) in asked:
                    return SERV_FAIL, True, [done, [], []], False
                continue
            if what == "outside":
                return NO_ERROR, True, [done, [], []], False
            if what == "cut":
                servers = self.records(found, found, NS)
                return NO_ERROR, bool(done), [done, servers, self.extras(True, done + servers, servers)], True
            if what == "no name" or not found:
                code = NX_DOMAIN if what == "no name" else NO_ERROR
                return code, True, [done, self.negative(name), []], False
            extras = [] if kind == ANY else self.extras(False, done + found, found)
            return NO_ERROR, True, [done + found, [], extras], False

    def refusal(self, query):
        """The code of a message that no answer is looked for, or nothing."""
        if query.edns and query.edns.version != 0:
            return BAD_VERSION
        if query.opcode != QUERY:
            return NOT_IMP
        if len(query.questions) != 1:
            return FORM_ERR
        [asked] = query.questions
        if asked.dns_class != self.dns_class or asked.unicast:
            return REFUSED
        if is_meta(asked.type) and asked.type != ANY:
            return NOT_IMP
        if not is_zone_of(self.origin, asked.name):
            return REFUSED
        return None if (key(self.origin), SOA) in self.sets else SERV_FAIL


def reply(zone, query):
    """The response to a message, and whether its additional records are those of a referral; nothing for a response."""
    if query.response:
        return None
    code, is_authoritative, sections, is_referral = zone.refusal(query), False, [[], [], []], False
    if code is None:
        [asked] = query.questions
        code, is_authoritative, sections, is_referral = zone.answer(asked.type, asked.name)
    flags = (query.flags & {"RD", "CD"}) | ({"AA"} if is_authoritative else set())
    questions = query.questions if len(query.questions) == 1 else []
    edns = Edns(code >> 4, 0, query.edns.dnssec_ok, 0, LEAST, ()) if query.edns else None
    return Message(query.id, True, query.opcode, flags, code, questions, sections, edns), is_referral


def sent(zone, data, most):
    """The bytes that are sent for those that came, in a datagram of at most so many, or in a stream; or nothing."""
    try:
        query = read_message(data)
    except Refused:
        if len(data) < 12 or data[2] & 0x80:
            return b""
        header, _ = read_header(data)
        return written(Message(header.id, True, header.opcode, header.flags & {"RD", "CD"}, FORM_ERR), LEAST)
    answered = reply(zone, query)
    if answered is None:
        return b""
    message, is_referral = answered
    taken = query.edns.payload if query.edns else LEAST
    limit = MOST if most is None else max(min(most, taken), LEAST)
    bytes_ = written(message, limit)
    if bytes_[2] & 0x02 and not is_referral:
        message.sections[2] = []
        bytes_ = written(message, limit)
    return bytes_
