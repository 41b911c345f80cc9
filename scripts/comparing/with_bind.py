"""Whether `dnsmsg apply` makes of a zone what BIND makes of it by random updates (RFC 2136), and a zone that is held."""
import random
import subprocess
import sys
import tempfile
import time

import dns.query
import dns.rcode
import updates

SERVER = ("127.0.0.1", 5399)

# What BIND asks of a zone beyond RFC 2136 is left out.
SETTINGS = """options {
    directory "%s"; pid-file "pid"; session-keyfile "key"; recursion no; notify no; dnssec-validation no;
    listen-on port 5399 { 127.0.0.1; }; listen-on-v6 { none; };
};
controls { };
zone "example." {
    type primary; file "zone"; allow-update { 127.0.0.1; }; allow-transfer { 127.0.0.1; };
    check-names ignore; check-mx ignore; check-mx-cname ignore; check-srv-cname ignore; check-integrity no;
};
"""


def started(folder):
    """A server of the zone."""
    with open(f"{folder}/zone", "w", encoding="utf-8") as zone:
        zone.write(updates.ZONE)
    with open(f"{folder}/settings", "w", encoding="utf-8") as settings:
        settings.write(SETTINGS % folder)
    named = subprocess.Popen(["named", "-g", "-c", f"{folder}/settings"], stderr=subprocess.DEVNULL)
    for _ in range(100):
        try:
            return named, updates.fetched(SERVER)
        except OSError:
            time.sleep(0.1)
    named.kill()
    sys.exit("named gives no answer")


def differs(program, update, before, after, code):
    """What the program makes otherwise, if anything."""
    words = ["apply", "example.", update.to_wire().hex()]
    ran = subprocess.run([program, *words], input=updates.text(before).encode(), capture_output=True, check=False)
    name, _, *lines = ran.stdout.decode().splitlines() + [""]
    same = ran.returncode == 0 and name.upper() == code and updates.printed(filter(None, lines)) == updates.meaning(after)
    return None if same else f"{code}\n{update}\n{updates.text(before)}\n{ran.stdout.decode()}"


def held_differs(zone, update, after, code):
    """What comes of it in a zone that is held since the first update, if that is otherwise."""
    got, _ = zone.update(update.to_wire())
    same = got == dns.rcode.from_text(code) and updates.printed(zone.lines()) == updates.meaning(after)
    return None if same else f"held: {got} and not {code}\n{update}\n{zone.lines()}\n{updates.text(after)}"


def compare(program, seed, count):
    """Asks so many updates, of `program` or, without one, of a zone that is held; answers the status."""
    random.seed(seed)
    differ, codes = [], {}
    if not program:
        from held import Held
        kept = Held("example.", updates.ZONE)
    with tempfile.TemporaryDirectory() as folder:
        named, zone = started(folder)
        try:
            for _ in range(count):
                update = updates.update()
                code = dns.rcode.to_text(dns.query.tcp(update, SERVER[0], port=SERVER[1]).rcode())
                codes[code] = codes.get(code, 0) + 1
                after = updates.fetched(SERVER)
                told = differs(program, update, zone, after, code) if program else held_differs(kept, update, after, code)
                differ += filter(None, [told])
                zone = after
        finally:
            named.terminate()
            named.wait()
    print(f"{count} updates, {len(differ)} applied otherwise: {codes}", *differ[:2], sep="\n")
    return bool(differ)
