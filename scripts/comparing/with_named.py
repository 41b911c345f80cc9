"""Whether a zone that is held answers what BIND answers (RFC 1034, 4.3.2)."""
import random
import subprocess
import sys
import tempfile
import time

import dns.flags
import dns.message
import dns.query
import dns.rcode
import dns.rdatatype
from held import Held

SERVER, PORT = "127.0.0.1", 5398
DATAGRAM = 1232
ASKED = 100

# What RFC 1034 asks for and no more: ANY whole, no name servers beside answers.
SETTINGS = """options {
    directory "%s"; pid-file "pid"; session-keyfile "key"; recursion no; notify no; dnssec-validation no;
    listen-on port 5398 { 127.0.0.1; }; listen-on-v6 { none; }; minimal-responses no-auth; minimal-any no;
    max-udp-size 1232; nocookie-udp-size 1232; send-cookie no; answer-cookie no;
};
controls { };
zone "example." {
    type primary; file "zone"; check-names ignore; check-mx ignore; check-mx-cname ignore; check-srv-cname ignore;
    check-integrity no; check-sibling no; check-wildcard no;
};
"""

LABELS = ["a", "b", "B", "c", "*", "ns"]
KINDS = ["A", "A", "AAAA", "NS", "MX", "TXT", "CNAME", "SOA", "DS", "ANY", "SRV"]


def name(depth):
    return ".".join([*random.choices(LABELS, k=random.randrange(depth)), "example."])


def data(kind):
    return {
        "A": f"192.0.2.{random.randrange(4)}",
        "AAAA": f"2001:db8::{random.randrange(3)}",
        "TXT": f'"{"t" * random.choice([1, 1, 200])}{random.randrange(9)}"',
        "MX": f"10 {name(4)}",
        "NS": name(4),
        "CNAME": name(4),
        "SRV": f"0 0 53 {name(4)}",
    }[kind]


def zone():
    """Zone text that BIND loads: an alias stands alone, no name servers at an asterisk, and those of the zone outside it."""
    lines, alone, taken = ["@ 300 SOA ns.example. hostmaster.example. 1 7200 3600 1209600 60", "@ 300 NS ns.test."], set(), {"example."}
    for _ in range(random.randrange(25)):
        owner, kind = name(4), random.choice(["A", "A", "AAAA", "TXT", "MX", "NS", "CNAME", "CNAME", "SRV"])
        folded = owner.lower()
        if folded in alone or (kind == "CNAME" and folded in taken):
            continue
        if kind == "NS" and (owner.startswith("*") or folded == "example."):
            continue
        taken.add(folded)
        if kind == "CNAME":
            alone.add(folded)
        lines.append(f"{owner} {random.choice([60, 300])} {kind} {data(kind)}")
    return "\n".join(lines) + "\n"


def started(folder, text):
    with open(f"{folder}/zone", "w", encoding="utf-8") as file:
        file.write(text)
    with open(f"{folder}/settings", "w", encoding="utf-8") as file:
        file.write(SETTINGS % folder)
    named = subprocess.Popen(["named", "-g", "-c", f"{folder}/settings"], stderr=subprocess.DEVNULL)
    for _ in range(100):
        try:
            asked = dns.query.tcp(dns.message.make_query("example.", "SOA"), SERVER, port=PORT, timeout=1)
            if asked.rcode() == dns.rcode.NOERROR:
                return named
        except OSError:
            pass
        time.sleep(0.05)
    named.kill()
    sys.exit("named gives no answer")


def meaning(message):
    """Code, AA, TC, and the data of answers and authorities under each owner and type; of what is cut neither."""
    def said(section):
        return {(it.name.canonicalize(), it.rdtype, data.to_digestable()) for it in section for data in it}

    flags = message.flags & (dns.flags.AA | dns.flags.TC)
    parts = [] if message.flags & dns.flags.TC else [said(message.answer), said(message.authority)]
    return dns.rcode.to_text(message.rcode()), flags, parts


def compare(_program, seed, count):
    """Asks so many queries, a hundred of each zone; answers the status."""
    random.seed(seed)
    differ, codes = [], {}
    for _ in range(max(count // ASKED, 1)):
        text = zone()
        kept = Held("example.", text)
        with tempfile.TemporaryDirectory() as folder:
            named = started(folder, text)
            try:
                for _ in range(ASKED):
                    query = dns.message.make_query(name(6), random.choice(KINDS), use_edns=random.choice([0, -1]), payload=DATAGRAM)
                    by_stream = random.random() < 0.5
                    ask = dns.query.tcp if by_stream else dns.query.udp
                    theirs = ask(query, SERVER, port=PORT, timeout=5)
                    ours = dns.message.from_wire(kept.answer(query.to_wire(), None if by_stream else DATAGRAM))
                    codes[dns.rcode.to_text(theirs.rcode())] = codes.get(dns.rcode.to_text(theirs.rcode()), 0) + 1
                    if meaning(ours) != meaning(theirs):
                        differ.append(f"{query.question[0]}\n-- here\n{ours}\n-- BIND\n{theirs}\n-- of\n{text}")
            finally:
                named.terminate()
                named.wait()
    print(f"{count} queries, {len(differ)} answered otherwise: {codes}", *differ[:2], sep="\n")
    return bool(differ)
