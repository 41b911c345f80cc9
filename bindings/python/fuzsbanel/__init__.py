"""DNS messages, zone text and updates, by the exports of a library that is proved to meet its contracts.

Everything here is a call of include/fuzsbanel.h, whose comments say what each does; this package adds bytes, exceptions,
generators, and values with fields, and no logic of DNS. It needs Python 3.8 or later, and the shared object that
`make -C bindings/c` builds in bindings/c/build, which `pip install ./bindings/python` puts beside it, or the one that
FUZSBANEL_LIB names.

    >>> import fuzsbanel
    >>> query = bytes.fromhex("00010100000100000000000001610000010001")
    >>> fuzsbanel.check(query)
    19
    >>> fuzsbanel.check(query[:18])
    Traceback (most recent call last):
    ...
    fuzsbanel.Refusal: 4: the bytes end inside a field, or before the place
    >>> fuzsbanel.cut(query, 512) == query
    True
    >>> print(fuzsbanel.zone("example.", "www 300 A 192.0.2.1"), end="")
    $ORIGIN example.
    www.example. 300 IN A 192.0.2.1

The data of a record has a place, a text, and names, which may be compressed; each is read at its own place:

    >>> response = bytes.fromhex(
    ...     "000981800001000100000000076578616d706c6500000f0001c00c000f00010000012c0009000a046d61696cc00c")
    >>> [record] = fuzsbanel.records(response)
    >>> fuzsbanel.data_text(response, record.name)
    '10 mail.example.'
    >>> fuzsbanel.name(response, record.data_place + 2)
    'mail.example.'
    >>> fuzsbanel.name(record.owner, 0)
    'example.'

`Message` reads one whole, and gives the data of its records with fields:

    >>> message = fuzsbanel.Message(response)
    >>> [message.data(found).exchange for found in message.answers]
    ['mail.example.']

As a program, `python3 -m fuzsbanel`, it reads messages in hexadecimal, one a line, and prints what each call makes of
them.
"""
from .data import A, AAAA, ANAME, CNAME, MX, NS, PTR, SOA, SRV, TXT, Data, Opaque
from .message import Edns, Message
from .messages import (EdnsOption, Header, Query, Record, Response, build_notify, build_query, build_response, check, cut,
                       data_text, data_wire, header, name, name_wire, options, queries, query, record, records, response,
                       text, walk, wire_text)
from .mnemonics import class_number, class_text, code_number, code_text, type_number, type_text, version
from .refusal import Refusal
from .updates import (append, compare_and_swap, create, delete_all, delete_by_rdata, delete_rrset, zone_transfer)
from .zones import Applied, Fault, Zone, apply, zone, zone_check

__all__ = [
    "A", "AAAA", "ANAME", "Applied", "CNAME", "Data", "Edns", "EdnsOption", "Fault", "Header", "MX", "Message", "NS",
    "Opaque", "PTR", "Query", "Record", "Refusal", "Response", "SOA", "SRV", "TXT", "Zone", "append", "apply", "build_notify",
    "build_query", "build_response", "check", "class_number", "class_text", "code_number", "code_text",
    "compare_and_swap", "create", "cut", "data_text", "data_wire", "delete_all", "delete_by_rdata", "delete_rrset",
    "header", "name", "name_wire", "options", "queries", "query", "record", "records", "response", "text", "type_number",
    "type_text", "version", "walk", "wire_text", "zone", "zone_check", "zone_transfer",
]

# what no comment calls
__test__ = {
    "messages": """
    >>> message = bytes.fromhex("000981800001000100000000076578616d706c6500000f0001c00c000f00010000012c0009000a046d61696cc00c")
    >>> told = header(message)
    >>> told.id, told.queries, told.answers, told.response, told.recursion_desired, told.truncated
    (9, 1, 1, True, True, False)
    >>> query(message, 12) == (Query(12, 15, 1), 25)
    True
    >>> [name(found.owner, 0) for found in queries(message)]
    ['example.']
    >>> text(message).splitlines()[4]
    'example. 300 IN MX 10 mail.example.'
    >>> name(message, 47)
    Traceback (most recent call last):
    ...
    fuzsbanel.Refusal: 4: the bytes end inside a field, or before the place
    """,
    "updates": """
    >>> www = "www 300 A 192.0.2.2"
    >>> empty = "@ 300 SOA ns hostmaster 1 2 3 4 5\\n"
    >>> filled_zone = empty + www
    >>> def after(update, zone_text):
    ...     lines = apply(update, "example.", zone_text).splitlines()
    ...     return lines[:1] + lines[3:]
    >>> after(create(1, "example.", www), empty)
    ['NoError', 'www.example. 300 IN A 192.0.2.2']
    >>> after(create(1, "example.", www, use_edns=True), filled_zone)
    ['YXRRSet', 'www.example. 300 IN A 192.0.2.2']
    >>> after(append(2, "example.", "www 300 A 192.0.2.3", must_exist=True), filled_zone)
    ['NoError', 'www.example. 300 IN A 192.0.2.2', 'www.example. 300 IN A 192.0.2.3']
    >>> after(compare_and_swap(3, "example.", www, "www 9 A 192.0.2.4"), filled_zone)
    ['NoError', 'www.example. 9 IN A 192.0.2.4']
    >>> after(delete_by_rdata(4, "example.", www), filled_zone)
    ['NoError']
    >>> after(delete_rrset(5, "example.", "www", 1), filled_zone)
    ['NoError']
    >>> after(delete_all(6, "example.", "www.example."), filled_zone)
    ['NoError']
    >>> kept = apply(append(8, "example.", "www 300 TYPE257 \\\\# 9 000569737375656361"), "example.", filled_zone)
    >>> kept = apply(create(9, "example.", "e 300 A \\\\# 0"), "example.", kept.partition("\\n")[2]).partition("\\n")[2]
    >>> print(zone("example.", kept), end="")
    $ORIGIN example.
    example. 300 IN SOA ns.example. hostmaster.example. 1 2 3 4 5
    e.example. 300 IN A \\# 0
    www.example. 300 IN A 192.0.2.2
    www.example. 300 IN TYPE257 \\# 9 000569737375656361
    >>> zone("", "b. 5 NS x\\n$ORIGIN a.")
    Traceback (most recent call last):
    ...
    fuzsbanel.Refusal: 31: what no message says: a relative name in data, an OPT record, a code without bits
    >>> zone_transfer(7, "example.").hex()
    '000700000001000000000001076578616d706c650000fc000100002904d0000000000000'
    """,
}
