"""Zone text (RFC 1035, 5.1): its tokens, and the zone that its entries define."""
from data import CLASS_NUMBERS, CNAME, ANAME, IN, SOA, TYPE_NUMBERS, is_ttl, parse_data, parse_ttl, same_data
from messages import Record
from names import Refused, folded, made_absolute, name_text, parse_name

NO_PLACE, LEXER, SAID, NOT_INCLUDED, UNKNOWN_TYPE = 17, 18, 19, 20, 21
MOST_OPEN = 257

ITEM, LIST, BLANK, LINE_END, AT, ORIGIN, INCLUDE, TTL = "item", "list", "blank", "line end", "@", "$ORIGIN", "$INCLUDE", "$TTL"


class Lexer:
    """A text, and the place in it."""

    def __init__(self, text):
        self.text, self.at = text, 0

    def next(self, wanted):
        """Whether one of these characters comes next."""
        return self.at < len(self.text) and self.text[self.at] in wanted

    def while_not(self, ends):
        """The characters up to one of these, and whatever stands after a backslash."""
        start = self.at
        while self.at < len(self.text) and not self.next(ends):
            self.at += 2 if self.next("\\") else 1
        if self.at > len(self.text):
            raise Refused(LEXER)
        return self.text[start : self.at]

    def word(self):
        """An item or a quoted text, and whether it was quoted."""
        if not self.next('"'):
            return self.while_not(' \t\r\n;()"'), False
        self.at += 1
        found = self.while_not('"')
        if not self.next('"'):
            raise Refused(LEXER)
        self.at += 1
        return found, True

    def comment(self):
        while self.at < len(self.text) and not self.next("\r\n"):
            self.at += 1

    def list(self):
        """The items up to the closing parenthesis."""
        found = []
        self.at += 1
        while not self.next(")"):
            if self.next(";"):
                self.comment()
            elif self.next(" \t\r\n"):
                self.at += 1
            elif self.at == len(self.text) or self.next("("):
                raise Refused(LEXER)
            else:
                item, quoted = self.word()
                if item.startswith("$") and not quoted:
                    raise Refused(LEXER)
                found.append(item)
        self.at += 1
        return found

    def tokens(self):
        """The tokens up to the text's end, or to a fault."""
        begins = True
        while self.at < len(self.text):
            begun, begins = begins, False
            if self.next("\r\n"):
                self.at += 2 if self.text.startswith("\r\n", self.at) else 1
                begins = True
                yield LINE_END, None
            elif self.next(" \t"):
                while self.next(" \t"):
                    self.at += 1
                if begun:
                    yield BLANK, None
            elif self.next(";"):
                self.comment()
            elif self.next("("):
                yield LIST, self.list()
            elif self.next(")"):
                raise Refused(LEXER)
            else:
                yield self.token_of(*self.word())

    @staticmethod
    def token_of(item, quoted):
        if quoted or not (item == AT or item.startswith("$")):
            return ITEM, item
        if item not in (AT, ORIGIN, INCLUDE, TTL):
            raise Refused(LEXER)
        return item, None


class Ended(Exception):
    """A text ended, and with it an entry, if one had begun."""


def token(tokens):
    for it in tokens:
        return it
    raise Ended


def item(tokens):
    """The next token, which is to be an item."""
    sign, text = token(tokens)
    if sign != ITEM:
        raise Refused(NO_PLACE)
    return text


def items_of_data(tokens):
    """The items up to the line's end, or to the text's."""
    found = []
    for sign, text in tokens:
        if sign == LINE_END:
            break
        if sign not in (ITEM, LIST):
            raise Refused(NO_PLACE)
        found += text if sign == LIST else [text]
    return found


def upper(text):
    return "".join(it.upper() if it.isascii() else it for it in text)


class Zone:
    """What is in force, and the sets so far: their records, and the class of each set."""

    def __init__(self, includes, origin):
        self.includes, self.origin = includes, origin and made_absolute(origin)
        self.owner = self.pending = self.default = self.last = None
        self.dns_class = IN
        self.sets, self.classes = {}, {}

    def text(self, text, depth):
        """The entries of a text, which is open among so many."""
        tokens = Lexer(text).tokens()
        try:
            while True:
                self.entry(tokens, depth)
        except Ended:
            pass

    def entry(self, tokens, depth):
        sign, text = token(tokens)
        if sign == ORIGIN:
            self.origin = parse_name(item(tokens), None)
        elif sign == TTL:
            self.default = parse_ttl(item(tokens))
        elif sign == INCLUDE:
            self.include(tokens, depth)
        elif sign == LIST:
            raise Refused(NO_PLACE)
        elif sign != LINE_END:
            if sign == ITEM:
                self.owner = parse_name(text, self.origin)
            elif sign == AT:
                self.owner = self.origin
            self.record(tokens)

    def include(self, tokens, depth):
        name = item(tokens)
        sign, _ = token(tokens)
        if sign != LINE_END:
            raise Refused(SAID if sign == ITEM else NO_PLACE)
        if depth == MOST_OPEN:
            raise Refused(SAID)
        if name not in self.includes:
            raise Refused(NOT_INCLUDED)
        origin = self.origin
        self.text(self.includes[name], depth + 1)
        self.origin = origin

    def record(self, tokens):
        """What stands after an owner."""
        while True:
            sign, text = token(tokens)
            if sign == LINE_END:
                return
            if sign != ITEM:
                raise Refused(NO_PLACE)
            if is_ttl(text):
                self.pending = parse_ttl(text)
            elif upper(text) in CLASS_NUMBERS:
                self.dns_class = CLASS_NUMBERS[upper(text)]
            elif upper(text) in TYPE_NUMBERS:
                break
            else:
                raise Refused(UNKNOWN_TYPE)
        self.add(TYPE_NUMBERS[upper(text)], items_of_data(tokens))

    def ttl(self):
        if self.pending is not None:
            self.last, self.pending = self.pending, None
            return self.last
        return self.last if self.default is None else self.default

    def add(self, kind, items):
        data = parse_data(kind, items, self.origin)
        if self.owner is None:
            raise Refused(SAID)
        ttl = self.ttl()
        if ttl is None:
            raise Refused(SAID)
        record = Record(made_absolute(self.owner), self.dns_class, False, ttl, data)
        key = folded(record.name)[1], kind
        if key not in self.sets:
            self.sets[key], self.classes[key] = [record], record.dns_class
        elif kind == SOA:
            raise Refused(SAID)
        else:
            insert(self.sets[key], record)


def same_record(one, other):
    """Whether two records are equal: name, class and data."""
    return folded(one.name) == folded(other.name) and one.dns_class == other.dns_class and same_data(one.data, other.data)


def put(records, record):
    """In place of each record of equal data, or after all."""
    if any(same_data(it.data, record.data) for it in records):
        records[:] = [record if same_data(it.data, record.data) else it for it in records]
    else:
        records.append(record)


def insert(records, record):
    """Into the records of a set that is no SOA's: one of CNAME or ANAME has one record, and an equal one of this TTL stays."""
    if record.data.type in (CNAME, ANAME):
        records.clear()
    if not any(same_record(it, record) and it.ttl == record.ttl for it in records):
        put(records, record)


def parsed(text, includes, origin):
    """The origin, the sets, and the class of each."""
    zone = Zone(includes, origin)
    zone.text(text, 1)
    if zone.origin is None:
        raise Refused(SAID)
    return zone.origin, zone.sets, zone.classes


def zone_text(origin, sets):
    """The origin, and the records by owner, from the last label on, and type."""
    records = [it for key in sorted(sets, key=lambda key: (key[0][::-1], key[1])) for it in sets[key]]
    return "".join(f"{line}\n" for line in [f"$ORIGIN {name_text(origin)}", *(it.text() for it in records)])
