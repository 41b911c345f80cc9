"""What secondaries get of `nameserver.py`: transfers, NOTIFY, and a BIND that follows each change."""
import os
import socket
import struct
import subprocess
import tempfile
import time

from served import (AXFR, DYING, FORM_ERR, HOST, IXFR, LIMIT, NOT_AUTH, OPT, ORIGIN, REFUSED, SOA, ZONE, Served, added, fail,
                    framed, free_port, fuzsbanel, query, run, transferred, want)

ALLOWED = ("--update-from", HOST, "--transfer-to", HOST)
MANY = 3000
NOTIFY, CHANGES, SOON = 4, 20, 5

SETTINGS = """options {
    directory "%s"; pid-file "pid"; session-keyfile "key"; recursion no; notify no; dnssec-validation no;
    listen-on port %d { 127.0.0.1; }; listen-on-v6 { none; }; minimal-any no;
};
controls { };
zone "example." { type secondary; file "copy"; masterfile-format text; primaries { 127.0.0.1 port %d; }; };
"""


def ixfr(serial):
    return fuzsbanel.zone_transfer(7, ORIGIN, f"@ 300 SOA ns hostmaster {serial} 2 3 4 5")


def in_zone(text):
    """Owners and data of the records of a zone's text."""
    fields = [line.split(" ", 4) for line in fuzsbanel.zone(ORIGIN, text).splitlines()[1:]]
    return sorted(f"{owner} {data}" for owner, _, _, _, data in fields)


def try_transfers():
    text = ZONE + "".join(f"m{at} TXT {'t' * 50}\n" for at in range(MANY))
    with tempfile.TemporaryDirectory() as folder, Served(folder, *ALLOWED, text=text) as server:
        ask = query(ORIGIN, AXFR)
        with server.connected() as sock:
            sock.sendall(framed(ask))
            whole, count = transferred(sock)
            said = sorted(f"{owner} {data}" for owner, _, _, data in whole[:-1])
            want(count > 2 and said == in_zone(text), f"a transfer in {count} messages")
            # a transfer that nobody reads yet, while updates go on
            sock.setsockopt(socket.SOL_SOCKET, socket.SO_RCVBUF, 4096)
            sock.sendall(framed(ask))
            time.sleep(1)
            for at in range(5):
                want(server.code(added(f"new{at}")) == 0, "an update beside a transfer")
            want(server.code(fuzsbanel.delete_all(9, ORIGIN, "m2999")) == 0, "an update beside a transfer")
            want(transferred(sock)[0] == whole, "a transfer beside updates is of several zones")
            sock.sendall(framed(ask))
            want(len(transferred(sock)[0]) == len(whole) + 4, "a transfer after updates")
        serial = server.serial()
        want(serial == 7, f"the serial is {serial} after six updates")
        now = len(whole) + 4
        for known, length in ((serial, 1), (serial + 1, 1), (1, now), (serial + 2 ** 31 - 1, 1), (serial + 2 ** 31 + 1, now)):
            with server.connected() as sock:
                sock.sendall(framed(ixfr(known)))
                records, _ = transferred(sock)
                want(len(records) == length, f"IXFR of {known} at {serial} has {len(records)} records")
        for answer in (server.by_stream(ixfr(serial))[0], server.by_datagram(ixfr(1))):
            [asked, soa, opt] = fuzsbanel.walk(answer)
            want((asked.query_type, soa.record_type, opt.record_type) == (IXFR, SOA, OPT), "IXFR and an SOA alone")
        for name, kind, code in ((ORIGIN, IXFR, FORM_ERR), ("www.example", AXFR, NOT_AUTH), ("www.example", IXFR, NOT_AUTH)):
            want(server.code(query(name, kind)) == code, f"a transfer of {name} by {kind}")
        short = query(ORIGIN, IXFR)[:8] + b"\0\1\0\0" + query(ORIGIN, IXFR)[12:]
        for data in (b"", b"\0" * 5, b"\0" * 21, b"\0" * 22, b"\0" * 23):
            asked = short + b"\xc0\x0c" + struct.pack("!HHIH", SOA, 1, 0, len(data)) + data
            want(server.by_stream(asked)[0] is not None, f"IXFR with an SOA of {len(data)} bytes")
        want(fuzsbanel.header(server.by_datagram(ask)).rcode == REFUSED, "AXFR by UDP")
        for kind in (AXFR, IXFR):
            answers = server.by_stream(query(ORIGIN, kind), source="127.0.0.2")
            want(fuzsbanel.header(answers[0]).rcode == REFUSED, "a transfer to an address that isn't named")
        said = server.dig("+noall", "+answer", "example", "AXFR")
        want(said.count("\n") == now and said.count("SOA") == 2, "AXFR by dig")
        want(server.dig("+noall", "+answer", "example", "IXFR=1").count("\n") == now, "IXFR by dig")
    print(f"nameserver: transfers of {len(whole)} records in {count} messages")


def try_serials():
    """The serial rises with each update that changes something, and is the same after a start."""
    nothing = fuzsbanel.append(9, ORIGIN, "x 300 A 192.0.2.1", must_exist=True)
    with tempfile.TemporaryDirectory() as folder:
        with Served(folder, *ALLOWED, text=ZONE.replace(" 1 7200", f" {2 ** 32 - 2} 7200")) as server:
            seen, sizes = [], []
            for update, code in ((added("a"), 0), (nothing, 8), (added("a"), 0), (added("b"), 0)):
                want(server.code(update) == code, "an update")
                seen.append(server.serial())
                sizes.append(os.path.getsize(server.journal))
            want(sizes[0] == sizes[2] < sizes[3], "an update that changes nothing stands in the journal")
            size = os.path.getsize(server.journal)
            status, said = server.nsupdate("prereq yxdomain a.example.")
            want(status == 0 and server.serial() == seen[-1], f"prerequisites alone: {said}")
            want(os.path.getsize(server.journal) == size, "prerequisites alone stand in the journal")
            want(seen == [2 ** 32 - 1] * 3 + [0], f"serials {seen}")
        with Served(folder, *ALLOWED, text=ZONE.replace(" 1 7200", f" {2 ** 32 - 2} 7200")) as server:
            want(server.serial() == seen[-1], "a serial after a start")
    print("nameserver: serials that rise with updates")


def try_notify():
    """A secondary that doesn't answer is told again; one that does isn't, until the next change."""
    with socket.socket(socket.AF_INET, socket.SOCK_DGRAM) as secondary, tempfile.TemporaryDirectory() as folder:
        secondary.bind((HOST, 0))
        secondary.settimeout(LIMIT)
        with Served(folder, *ALLOWED, "--notify", f"{HOST}#{secondary.getsockname()[1]}") as server:
            first, source = secondary.recvfrom(4096)
            again, began = secondary.recvfrom(4096)[0], time.monotonic()
            header, [asked] = fuzsbanel.header(first), fuzsbanel.queries(first)
            want(first == again and header.opcode == NOTIFY and header.authoritative and not header.response, "a NOTIFY")
            want((fuzsbanel.name(first, asked.name), asked.query_type) == (ORIGIN, SOA), "what is told of")
            heard_it = first[:2] + bytes([first[2] | 0x80]) + first[3:]
            for wrong in (first, bytes(12), b"", bytes([first[0] ^ 1]) + heard_it[1:], first[:2] + b"\x80" + first[3:]):
                secondary.sendto(wrong, source)
            want(secondary.recv(4096) == first and time.monotonic() - began > 3, "the second wait is twice the first")
            secondary.sendto(heard_it, source)
            want(server.code(added("www", 3)) == 0, "an update that changes nothing")
            secondary.settimeout(9)
            want(heard(secondary) is None, "who heard is told again, or of no change")
            for at in range(3):
                want(server.code(added(f"n{at}")) == 0, "an update")
            told = [heard(secondary), heard(secondary)]
            want(all(it and it[2:] == first[2:] for it in told), "a change isn't told of")
    print("nameserver: NOTIFY until it is heard")


def heard(sock):
    try:
        return sock.recv(4096)
    except TimeoutError:
        return None


def try_named():
    """A BIND that is told has each change within seconds."""
    port = free_port()
    with tempfile.TemporaryDirectory() as folder, Served(folder, *ALLOWED, "--notify", f"{HOST}#{port}") as server:
        with open(f"{folder}/settings", "w", encoding="utf-8") as file:
            file.write(SETTINGS % (folder, port, server.port))
        with open(f"{folder}/log", "w", encoding="utf-8") as log:
            named = subprocess.Popen([*DYING, "named", "-g", "-c", f"{folder}/settings"], stderr=log)
        try:
            slowest = 0
            for at in range(CHANGES):
                name = f"n{at}.example"
                lines = [f"update add {name}. 300 A 192.0.2.{at}", f"update delete n{at - 1}.example."]
                status, said = server.nsupdate(*lines[:1 + at % 2])
                want(status == 0, f"nsupdate: {said}")
                slowest = max(slowest, copied(port, name, f"192.0.2.{at}", server.serial(), LIMIT if at == 0 else SOON))
            want(dig(port, "n18.example", "A") == "", "a change that BIND lacks")
            whole = ["+noall", "+answer", "+onesoa", "example", "AXFR"]
            ours, theirs = (run(["dig", f"@{HOST}", "-p", str(it), *whole])[1].splitlines() for it in (server.port, port))
            want(sorted(map(str.split, ours)) == sorted(map(str.split, theirs)), "BIND has another zone")
        except BaseException:
            with open(f"{folder}/log", encoding="utf-8") as log:
                print(log.read()[-3000:])
            raise
        finally:
            named.terminate()
            try:
                named.wait(LIMIT)
            except subprocess.TimeoutExpired:
                named.kill()
                named.wait()
    print(f"nameserver: a BIND had each of {CHANGES} changes after {slowest:.1f} seconds at most")


def dig(port, name, kind):
    return run(["dig", f"@{HOST}", "-p", str(port), "+short", "+tries=1", "+time=1", name, kind])[1].strip()


def copied(port, name, address, serial, seconds):
    """After how many seconds the BIND at a port has an address and a serial."""
    began = time.monotonic()
    while time.monotonic() - began < seconds:
        if dig(port, name, "A") == address and f" {serial} " in dig(port, ORIGIN, "SOA"):
            return time.monotonic() - began
        time.sleep(0.1)
    return fail(f"BIND doesn't have {name} after {seconds} seconds")
