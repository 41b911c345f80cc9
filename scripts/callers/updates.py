"""Which updates `nameserver.py` carries out, what it writes before, and what a start makes of a journal that was cut or
damaged."""
import os
import random
import re
import subprocess
import tempfile
import time

from served import (A, HOST, LIMIT, NOT_AUTH, ORIGIN, REFUSED, SERV_FAIL, TXT, YX_RRSET, ZONE, Served, added, fail, fuzsbanel,
                    query, unsigned, want)
import nameserver  # noqa: E402

ALLOWED = ("--update-from", HOST)
HEAD, ENTRY = 48, 8
KILLS = 20


def try_updates():
    with tempfile.TemporaryDirectory() as folder, Served(folder) as server:
        want(server.code(added("a")) == REFUSED, "an update from an address that isn't named")
    with tempfile.TemporaryDirectory() as folder, Served(folder, *ALLOWED) as server:
        rows = [
            (("update add a.example. 300 A 192.0.2.9", "update add a.example. 300 TXT \"t\""), ""),
            (("prereq nxdomain a.example.", "update add b.example. 300 A 192.0.2.9"), "YXDOMAIN"),
            (("prereq yxdomain a.example.", "update add b.example. 300 A 192.0.2.9"), ""),
            (("prereq yxrrset b.example. A 192.0.2.8", "update delete b.example."), "NXRRSET"),
            (("prereq yxrrset b.example. A 192.0.2.9", "update delete b.example. A 192.0.2.9"), ""),
            (("prereq nxrrset a.example. A", "update delete a.example."), "YXRRSET"),
            (("update delete a.example. TXT", "update delete www.example."), ""),
            (("update add outside.test. 300 A 192.0.2.9",), "NOTZONE"),
        ]
        for lines, code in rows:
            status, said = server.nsupdate(*lines)
            want(code in said and (status == 0) == (not code), f"nsupdate {lines}: {said}")
        now = [server.has(f"{name}.example", kind) for name, kind in (("a", A), ("a", TXT), ("b", A), ("www", A))]
        want(now == [1, 0, 0, 0], f"after nsupdate there are {now}")
        want(fuzsbanel.header(server.by_datagram(added("c"))).rcode == REFUSED, "an update by UDP")
        [answer] = server.by_stream(added("c"), source="127.0.0.2")
        want(fuzsbanel.header(answer).rcode == REFUSED, "an update from elsewhere")
        want(server.code(unsigned(added("c"))) == NOT_AUTH, "an update with TSIG")
        want(fuzsbanel.header(server.by_datagram(unsigned(added("c")))).rcode == NOT_AUTH, "an update by UDP with TSIG")
        size = os.path.getsize(server.journal)
        want(server.by_stream(response(added("c")), query("www.example"))[0] is None, "a response that is an update")
        want(server.code(added("c") + b"!") == 1, "an update with a byte after it")
        want(server.code(with_edns_version(added("c"))) == 0, "an update with EDNS of another version")
        want(server.has("c.example") == 0 and os.path.getsize(server.journal) == size, "an update that is refused")
    print(f"nameserver: {len(rows)} updates by nsupdate, and by whom")


def response(message):
    return message[:2] + bytes([message[2] | 0x80]) + message[3:]


def with_edns_version(message):
    count = fuzsbanel.header(message).additionals + 1
    return message[:11] + bytes([count]) + message[12:] + bytes.fromhex("00002904d0000100000000")


def three(folder):
    """The journal of three updates, and where each entry ends."""
    with Served(folder, *ALLOWED) as server:
        ends = [HEAD]
        for name in ("a", "b", "c"):
            want(server.code(added(name)) == 0, "an update")
            want(server.code(fuzsbanel.create(9, ORIGIN, f"{name} 300 A 192.0.2.7")) == YX_RRSET, "an update that is refused")
            ends.append(os.path.getsize(server.journal))
    return contents(server.journal), ends


def contents(path):
    with open(path, "rb") as file:
        return file.read()


def restarted(folder, journal):
    """Of a start with this journal how many of the three updates are there, and how long the journal is then; or None, and
    the words that it doesn't start with."""
    with open(f"{folder}/journal", "wb") as file:
        file.write(journal)
    with Served(folder, *ALLOWED) as server:
        if server.port is None:
            want(server.ended() == 1 and server.words().count("\n") == 1, f"no sentence: {server.words()}")
            want(contents(server.journal) == journal, "a journal that is refused is changed")
            return None, server.words()
        names = [server.has(f"{name}.example") for name in ("a", "b", "c")]
        want(names == sorted(names, reverse=True), f"a start has {names}")
        return sum(names), os.path.getsize(server.journal)


def try_journal():
    with tempfile.TemporaryDirectory() as folder:
        journal, ends = three(folder)
        want(restarted(folder, journal) == (3, ends[3]), "a start with a whole journal")
        for at in range(ends[2], ends[3]):
            want(restarted(folder, journal[:at]) == (2, ends[2]), f"a journal cut at {at}")
        for at in range(ends[2]):
            turned = journal[:at] + bytes([journal[at] ^ random.randrange(1, 256)]) + journal[at + 1:]
            count, words = restarted(folder, turned)
            want(count is None and "nameserver: " in words, f"a journal with another byte {at}: {words}")
        for at in range(ends[2], ends[3]):
            turned = journal[:at] + bytes([journal[at] ^ 0x10]) + journal[at + 1:]
            want(restarted(folder, turned)[0] is None, f"a last entry with another byte {at}")
        swapped = journal[:HEAD] + journal[ends[1]:ends[2]] + journal[HEAD:ends[1]] + journal[ends[2]:]
        for wrong in (b"", journal[:HEAD - 1], swapped, journal[:HEAD] + journal[ends[1]:]):
            want(restarted(folder, wrong)[0] is None, "a journal without its head, or with entries in another order")
        with Served(folder, *ALLOWED, text=ZONE + "more A 192.0.2.1\n") as server:
            want(server.port is None and server.ended() == 1, "another zone file")
        wrong_zones = [(ZONE + "a A 192.0.2\n", f"line {ZONE.count(chr(10)) + 1}, column 3: invalid data for type A"),
                       (ZONE + "$INCLUDE x", "no text named x"), ("www 300 A 192.0.2.1\n", "the zone has no SOA")]
        for text, words in wrong_zones:
            with Served(folder, text=text) as server:
                want(server.port is None and server.ended() == 1 and words in server.words(), f"a zone: {server.words()}")
        restarted(folder, journal)
        with Served(folder, *ALLOWED) as server, Served(folder, *ALLOWED) as other:
            want(other.port is None and other.ended() == 1 and server.has("c.example") == 1, "two servers of one journal")
    print(f"nameserver: a journal cut at {ends[3] - ends[2]} places, and with each of {ends[3]} bytes another")


def try_included():
    """A zone file may include others, and the journal is that of all of them."""
    with tempfile.TemporaryDirectory() as folder:
        files = {"hosts": f"inner A 192.0.2.5\n$INCLUDE {folder}/more\n", "more": "last A 192.0.2.6"}
        text = f"{ZONE}$INCLUDE {folder}/hosts\n"
        write(folder, files)
        for there in (0, 1):
            with Served(folder, *ALLOWED, text=text) as server:
                want([server.has(f"{it}.example") for it in ("inner", "last", "a")] == [1, 1, there], "what is included")
                want(server.code(added("a")) == 0, "an update")
        for name, wrong, words in (("more", "last A 192.0.2.7", "another zone file"),
                                   ("more", "last A 192.0.2", f"{folder}/more: line 1, column 6: invalid data for type A")):
            write(folder, {**files, name: wrong})
            with Served(folder, *ALLOWED, text=text) as server:
                want(server.port is None and server.ended() == 1 and words in server.words(), f"a zone: {server.words()}")
    print("nameserver: a zone file that includes others")


def write(folder, files):
    for name, text in files.items():
        with open(f"{folder}/{name}", "w", encoding="utf-8") as file:
            file.write(text)


def try_killed():
    """What was answered is there after the server was killed, and nothing that wasn't sent."""
    with tempfile.TemporaryDirectory() as folder:
        answered = sent = 0
        for _ in range(KILLS):
            with Served(folder, *ALLOWED) as server:
                there = sum(server.has(f"n{at}.example") for at in range(max(sent - 2, 0), sent)) + max(sent - 2, 0)
                want(answered <= there <= sent, f"{there} updates are there, {answered} were answered, {sent} sent")
                answered = sent = there
                killer = subprocess.Popen(["sh", "-c", f"sleep {random.random() / 5}; kill -9 {server.process.pid}"])
                try:
                    for _ in range(1000):
                        sent += 1
                        if server.code(added(f"n{sent - 1}")) != 0:
                            break
                        answered += 1
                except OSError:
                    pass
                killer.wait(LIMIT)
                server.process.wait(LIMIT)
    print(f"nameserver: {answered} updates, over {KILLS} servers that were killed")


class Traced:
    """The system calls of a server within a block, with faults injected as strace's words say."""

    def __init__(self, server, calls, *faults):
        self.path, self.server = f"{server.journal}.calls", server
        words = [word for fault in faults for word in ("-e", f"inject={fault}")]
        command = ["strace", "-qq", "-o", self.path, "-e", f"trace={calls}", *words, "-p", str(server.process.pid)]
        self.strace = subprocess.Popen(command, stderr=subprocess.DEVNULL)

    def __enter__(self):
        for _ in range(100 * LIMIT):
            with open(f"/proc/{self.server.process.pid}/status", encoding="utf-8") as file:
                if "TracerPid:\t0\n" not in file.read():
                    # it is stopped before the first of its calls is seen
                    time.sleep(0.1)
                    return self
            time.sleep(0.01)
        return fail("strace doesn't begin")

    def __exit__(self, *error):
        self.strace.terminate()
        self.strace.wait(LIMIT)

    def calls(self):
        """The name and the words of each call that was seen."""
        with open(self.path, encoding="utf-8") as file:
            return re.findall(r"^(\w+)\((.*)", file.read(), re.M)


def try_order():
    """For each update the write, the sync and the answer come one after the other."""
    count = 20
    with tempfile.TemporaryDirectory() as folder, Served(folder, *ALLOWED) as server:
        with Traced(server, "recvfrom,pwrite64,write,fdatasync,sendto") as traced:
            server.by_stream(*(added(f"n{at}") for at in range(count)))
        seen = [name for name, _ in traced.calls() if name != "recvfrom"]
        want(seen == ["pwrite64", "fdatasync", "sendto"] * count, f"{count} updates make the calls {seen}")
    print(f"nameserver: {count} updates, each written, synced and answered in this order")


def try_refused_memory():
    """Where the library has no memory for an update, the update isn't in the journal; where the serial isn't raised, the
    server ends, and a start carries the update out."""
    with tempfile.TemporaryDirectory() as folder:
        with open(f"{folder}/zone", "w", encoding="utf-8") as file:
            file.write(ZONE)
        words = f"{folder}/zone", ORIGIN, f"{folder}/journal"
        held = nameserver.HeldZone(*words)
        before, journal = held.zone.text(), contents(words[2])
        carry_out, held.zone.update = held.zone.update, refuse
        want(held.update(added("a")) == SERV_FAIL, "refused memory and no ServFail")
        want((held.zone.text(), contents(words[2])) == (before, journal), "an update that memory ran out for")
        held.zone.update, held.zone.raise_serial = carry_out, refuse
        try:
            held.update(added("a"))
            fail("a server goes on with a serial that isn't raised")
        except nameserver.Stop:
            pass
        serial = held.serial
        held.close()
        again = nameserver.HeldZone(*words)
        want((again.serial, "a.example." in again.zone.text()) == (serial + 1, True), "a start after that")
        again.close()
    print("nameserver: memory that is refused")


def refuse(*_):
    raise fuzsbanel.Refusal(3)


def try_faults():
    """Where an update can't be written it is answered ServFail and isn't there; where that can't be undone the server ends."""
    with tempfile.TemporaryDirectory() as folder:
        with Served(folder, *ALLOWED, before=("prlimit", "--fsize=150")) as server:
            codes = [server.code(added(name)) for name in "abcde"]
            want(codes == [0, 0, SERV_FAIL, SERV_FAIL, SERV_FAIL], f"a full disk: {codes}")
            want([server.has(f"{name}.example") for name in "abcde"] == [1, 1, 0, 0, 0], "updates on a full disk")
        with Served(folder, *ALLOWED) as server:
            want([server.has(f"{name}.example") for name in "abcde"] == [1, 1, 0, 0, 0], "a start after a full disk")
            size = os.path.getsize(server.journal)
            for fault in ("pwrite64:error=ENOSPC", "fdatasync:error=EIO:when=1"):
                with Traced(server, "pwrite64,fdatasync", fault):
                    want(server.code(added("f")) == SERV_FAIL, f"{fault} and no ServFail")
                want(server.has("f.example") == 0 and os.path.getsize(server.journal) == size, f"{fault}: an update is there")
            want(server.code(added("f")) == 0, "an update after faults")
            with Traced(server, "fdatasync", "fdatasync:error=EIO"):
                want(server.code(added("g")) is None and server.ended() == 1, "an entry can't be cut off")
            want("can't be cut off" in server.words(), f"no sentence: {server.words()}")
        with Served(folder, *ALLOWED) as server:
            want(server.has("f.example") == 1 and server.has("g.example") == 0, "a start after the server ended")
            with Traced(server, "fdatasync", "fdatasync:signal=SIGKILL"):
                want(server.code(added("h")) is None and server.ended() == -9, "the server isn't killed")
        with Served(folder, *ALLOWED) as server:
            want(server.has("h.example") == 1, "what was written before the server was killed")
            size = os.path.getsize(server.journal)
            with Traced(server, "ftruncate", "ftruncate:signal=SIGKILL"):
                refused = fuzsbanel.create(9, ORIGIN, "h 300 A 192.0.2.7")
                want(server.code(refused) is None and server.ended() == -9, "the server isn't killed")
            want(os.path.getsize(server.journal) > size, "a refused update that the server didn't come to cut off")
        with Served(folder, *ALLOWED) as server:
            want(os.path.getsize(server.journal) == size, "a refused update is cut off at the start")
    print("nameserver: faults of the journal's disk")
