"""Whether `update.py` says to a server what its lines say."""
import subprocess
import sys
import tempfile

from common import ROOT
from served import A, HOST, LIMIT, MX, TXT, Served, want

UPDATE = f"{ROOT}/bindings/programs/update.py"

# The lines of each update, and what is said of it; nothing where it is carried out.
ROWS = [
    (["update add a.example 300 A 192.0.2.1", "update add A.example. 300 A 192.0.2.2"], ""),
    (["prereq nxrrset a.example A", "update add a.example 300 A 192.0.2.3"], "line 5: YXRRSet"),
    (["prereq nxrrset b.example A", "update add b.example 300 A 192.0.2.3"], ""),
    (["prereq yxrrset c.example A", "update add c.example 300 A 192.0.2.3"], "line 5: NXRRSet"),
    (["prereq yxrrset b.example A", "update add b.example 300 A 192.0.2.4"], ""),
    (["prereq yxrrset b.example A 192.0.2.3", "prereq yxrrset b.example A 192.0.2.4", "update delete b.example A 192.0.2.4",
      "update delete b.example A 192.0.2.3", "update add b.example 60 A 192.0.2.5"], ""),
    (["prereq yxrrset b.example A 192.0.2.3", "update delete b.example A 192.0.2.3", "update add b.example 60 A 192.0.2.6"],
     "line 6: NXRRSet"),
    (["update delete a.example A 192.0.2.1"], ""),
    (["update add m.example 300 MX 10 mail.example", "update add m.example 300 MX 20 mail.test."], ""),
    (["update add t.example 300 TXT \"two  words\" one"], ""),
    (["update delete www.example TXT"], ""),
    (["update delete ns.example"], ""),
    (["update add a.example 300 A 192.0.2.9", "update add b.example 300 A 192.0.2.9"],
     "line 5: no call builds an update of several sets, or of none"),
    (["prereq nxdomain a.example", "update add a.example 300 A 192.0.2.9"], "line 3: no call builds an update with nxdomain"),
    (["prereq yxrrset a.example A 192.0.2.9", "update add a.example 300 A 192.0.2.9"],
     "line 5: no call builds an update with these prerequisites"),
    ([], "line 3: no call builds an update of several sets, or of none"),
    (["update add a.example 300 A 192.0.2"], "line 4: 23: items that are no data, name or TTL"),
    (["update add a.test 300 A 192.0.2.1"], "line 4: 28: an owner outside the zone"),
    (["update remove a.example"], "line 3: not understood: update remove a.example"),
]
LEFT = [("a", A, "192.0.2.2"), ("b", A, "192.0.2.5"), ("m", MX, "10 mail.example.\n20 mail.test."),
        ("t", TXT, '"two  words" "one"'), ("www", TXT, ""), ("www", A, "192.0.2.3\n192.0.2.4"), ("ns", A, "")]


def try_update():
    with tempfile.TemporaryDirectory() as folder, Served(folder, "--update-from", HOST) as server:
        for lines, wanted in ROWS:
            given = "\n".join([f"server {HOST} {server.port}", "zone example", *lines, "send", ""])
            ran = subprocess.run([sys.executable, UPDATE], input=given, capture_output=True, text=True, check=False,
                                 timeout=LIMIT)
            said = ran.stderr.strip().removeprefix("update: ")
            want(said == wanted and not ran.stdout and (ran.returncode == 0) == (not wanted), f"update {lines}: {ran.stderr}")
        for name, kind, data in LEFT:
            said = server.dig("+short", f"{name}.example", f"TYPE{kind}")
            want(sorted(said.splitlines()) == data.splitlines(), f"after updates {name} has {said}")
    print(f"update: {len(ROWS)} updates, as they should be answered")
