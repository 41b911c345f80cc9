"""Whether the library for C refuses zone text where `named-checkzone` does, and says the same line."""
import os
import re
import subprocess
import sys
import tempfile

from common import ROOT, missing

sys.path.insert(0, os.path.join(ROOT, "bindings", "python"))
try:
    import fuzsbanel
except ImportError as fault:
    missing(str(fault))

HEAD = "$TTL 300\n@ IN SOA ns hostmaster 1 7200 3600 1209600 60\n@ NS ns\nns A 192.0.2.1\n"

# Lines with a fault: what it is, and the lines.
FAULTS = [
    ("a byte of an address above 255", "www A 192.0.2.300"),
    ("an address of three bytes", "www A 192.0.2"),
    ("no address", "www A"),
    ("a letter that is no digit of an address", "www AAAA 2001:db8::g"),
    ("an address of another kind", "www AAAA 192.0.2.1"),
    ("a mail server without a preference", "www MX mail"),
    ("a preference of 65,536", "www MX 65536 mail"),
    ("a third item of a mail server", "www MX 1 mail 3"),
    ("no target of an alias", "www CNAME"),
    ("an empty label in data", "www NS a..b"),
    ("a label of 64 bytes in data", f"www CNAME {'b' * 64}"),
    ("a port of 65,536", "_a._tcp SRV 1 2 65536 host"),
    ("a service without a target", "_a._tcp SRV 1 2 3"),
    ("a host's data without its system", "www HINFO one"),
    ("a text record without a text", "www TXT"),
    ("a text of 256 bytes", f"www TXT {'t' * 256}"),
    ("an escaped number of 300 in a text", 'www TXT "a\\300"'),
    ("an unknown type", "www NOTYPE 1"),
    ("a TTL that is none, where the type would stand", "www 300 300x A 192.0.2.1"),
    ("an empty label of an owner", "a..b A 192.0.2.1"),
    ("a label of 64 bytes of an owner", f"{'a' * 64} A 192.0.2.1"),
    ("an escaped number of 300 in an owner", "www\\300 A 192.0.2.1"),
    ("an empty label of an origin", "$ORIGIN a..b"),
    ("an unknown directive", "$UNKNOWN x"),
    ("a text that isn't there", "$INCLUDE missing"),
    ("an open quotation", 'www TXT "open'),
    ("a second address", "www A 192.0.2.1 192.0.2.2"),
    ("a parenthesis that closes none", "www A 192.0.2.1 )"),
    ("a fault after empty lines and comments", "mail A 192.0.2.2\n\n; c\nwww A x"),
    ("a fault of the last owner's next record", "www A 192.0.2.1 ; c\n\tA 192.0.2.256"),
    ("an SOA of four numbers", "sub SOA ns hostmaster 1 2 3 4"),
    ("a second SOA", "@ SOA ns hostmaster 1 2 3 4 5"),
]


def their_line(text):
    """The line that `named-checkzone` says, or nothing where it takes the zone."""
    with tempfile.TemporaryDirectory() as folder:
        path = os.path.join(folder, "zone")
        with open(path, "w", encoding="utf-8") as file:
            file.write(text)
        command = ["named-checkzone", "-k", "ignore", "-i", "none", "example.", path]
        ran = subprocess.run(command, capture_output=True, text=True, cwd=folder, check=False)
    said = re.search(re.escape(path) + r":(\d+)", ran.stdout + ran.stderr)
    return int(said[1]) if ran.returncode and said else None


def compare():
    """Asks of each fault, after one line more than the one before it; answers the status."""
    status = 0
    for place, (what, lines) in enumerate(FAULTS):
        text = HEAD + "".join(f"h{n} A 192.0.2.{n}\n" for n in range(place)) + lines + "\nlast A 192.0.2.9\n"
        fault, theirs = fuzsbanel.zone_check("example.", text), their_line(text)
        if fault is None or fault.line != theirs:
            ours = "takes it" if fault is None else f"line {fault.line}, {fault.words}"
            print(f"{what}: {ours}; named-checkzone {'takes it' if theirs is None else f'line {theirs}'}")
            status = 1
    print(f"{len(FAULTS)} faults of zone text, {'not all' if status else 'all'} refused at the same line")
    return status
