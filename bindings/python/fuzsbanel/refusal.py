"""Why a call has no answer."""

NAMES = {
    1: "the limit has no room for the header",
    2: "the limit has no room for the questions",
    3: "memory ran out",
    4: "the bytes end inside a field, or before the place",
    5: "a name is spelled wrongly",
    6: "an OPT record has another owner than the root",
    7: "RDLENGTH says more bytes than are left",
    8: "data that its type doesn't read",
    10: "empty data outside an update",
    11: "a record after the signature",
    12: "OPT, SIG or TSIG outside the additional section",
    13: "a second OPT record",
    16: "a query, where a response is asked for",
    17: "a token that the entry has no place for",
    18: "a character or a bracket that no token has a place for",
    19: "an entry that can't be carried out",
    20: "an included text, and none is handed in",
    21: "a text that is no record type",
    22: "a type without a text form",
    23: "items that are no data, name or TTL",
    24: "a text that isn't UTF-8",
    25: "a record that isn't of the class IN",
    26: "an empty origin or name",
    27: "the text of a set without a record, or with several owners or types",
    28: "an owner outside the zone",
    29: "a type that no update here is of",
    30: "a record that isn't the zone's SOA",
    31: "what no message says: a relative name in data, an OPT record, a code without bits",
    32: "an update, question or record that no message of 65,535 bytes holds",
    33: "an update that leaves an owner with two ANAME records",
    34: "a zone handle that isn't open",
    35: "a zone that hasn't exactly one record as its SOA",
    36: "a place of a transfer that no call left",
    37: "a text that names no class, or no response code",
    38: "a response, where a query is asked for",
}


class Refusal(Exception):
    """A call has no answer: `number` is that of docs/REFUSALS.md, and `fault` where the text stands that a Zone was to be
    opened at, if it has one.

    >>> import pickle
    >>> pickle.loads(pickle.dumps(Refusal(19)))
    Refusal(19)
    >>> print(pickle.loads(pickle.dumps(Refusal(19))))
    19: an entry that can't be carried out
    """

    # as callers name it
    __module__ = "fuzsbanel"

    def __init__(self, number: int) -> None:
        super().__init__(number)
        self.number = number
        self.fault = None

    def __str__(self) -> str:
        return f"{self.number}: {NAMES.get(self.number, 'refused')}"
