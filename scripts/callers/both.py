"""What is asked of a server beside `nameserver.py`: whether it answers with the same bytes, whether the journal of each
goes on in the other, and what it does where it has no memory."""
import os
import random
import socket
import subprocess
import tempfile

from common import ROOT, need
from served import (A, ANY, AXFR, HOST, IXFR, LIMIT, ORIGIN, PYTHON, SERV_FAIL, SOA, TRIED, TXT, Served, added, fail, framed,
                    fuzsbanel, query, unsigned, want)
from secondaries import ixfr
from streams import damaged, whole
from updates import HEAD, contents

ALLOWED = ("--update-from", HOST, "--transfer-to", HOST)
SAME, ROUNDS, UPDATES, GROWTHS = 3000, 4, 5, 5000


def all_for(server, message):
    """All bytes that a connection gets for a message, and all datagrams."""
    with server.connected() as sock:
        sock.sendall(framed(message))
        sock.shutdown(socket.SHUT_WR)
        stream = b"".join(iter(lambda: sock.recv(65536), b""))
    last = b"\xff\xff" + query("ns.example")[2:]
    with socket.socket(socket.AF_INET, socket.SOCK_DGRAM) as sock:
        sock.settimeout(LIMIT)
        sock.connect((HOST, server.port))
        sock.send(message)
        sock.send(last)
        datagrams = [sock.recv(65535)]
        while datagrams[-1][:2] != last[:2]:
            datagrams.append(sock.recv(65535))
    return stream, datagrams


def try_same():
    random.seed(3)
    messages = [query("www.example", A, 1232), query("www.example", ANY), query("no.example"), query("alias.example"),
                query("big.example", TXT, 4096), query("WWW.Example", IXFR), query("no.example", ANY), query(ORIGIN, SOA),
                query(ORIGIN, AXFR), ixfr(1), ixfr(2 ** 31), added("www"), added("x"), unsigned(added("www")), bytes(12),
                unsigned(query("www.example")), fuzsbanel.delete_rrset(7, ORIGIN, "no", A), bytes(11),
                fuzsbanel.compare_and_swap(7, ORIGIN, "www 300 A 192.0.2.3", "www 300 A 192.0.2.5"),
                fuzsbanel.delete_all(7, ORIGIN, "x")]
    with tempfile.TemporaryDirectory() as one, tempfile.TemporaryDirectory() as other:
        with Served(one, *ALLOWED, program=PYTHON) as python, Served(other, *ALLOWED) as tried:
            for at in range(SAME):
                message = messages[at] if at < len(messages) else damaged(messages)
                said, wanted = all_for(tried, message), all_for(python, message)
                want(said == wanted, f"{message.hex()} is answered {said} and not {wanted}")
            want(whole(tried) == whole(python), "the zones differ")
            size, is_same = os.path.getsize(tried.journal), contents(tried.journal) == contents(python.journal)
            want(is_same and size > HEAD, "the journals differ")
    print(f"nameserver: {SAME} messages are answered as the other does, and leave the same journal of {size} bytes")


def try_exchanged():
    """A journal that one began goes on in the other, and back; of the same updates both have the same bytes."""
    journals = []
    for programs in ([PYTHON, TRIED], [TRIED, PYTHON]):
        with tempfile.TemporaryDirectory() as folder:
            zone = None
            for at in range(ROUNDS * UPDATES):
                if at % UPDATES == 0:
                    one, other = programs if at // UPDATES % 2 == 0 else reversed(programs)
                    with Served(folder, *ALLOWED, program=one) as server:
                        want(zone in (None, whole(server)), "a start with the journal of the other")
                        with Served(folder, *ALLOWED, program=other) as second:
                            want(second.port is None and second.ended() == 1, "two servers of one journal")
                        for name in range(at, at + UPDATES):
                            want(server.code(added(f"n{name}", name)) == 0, "an update")
                        zone = whole(server)
            journals.append(contents(server.journal))
    want(journals[0] == journals[1], "the journals differ")
    print(f"nameserver: a journal of {len(journals[0])} bytes goes on in the other, and back")


def try_few_files():
    with tempfile.TemporaryDirectory() as folder, Served(folder, before=("prlimit", "--nofile=100")) as server:
        want(server.port is None and server.ended() == 1 and "open files" in server.words(), "a server with few files")


def try_growths():
    """Each growth of the server is refused in turn: it ends with a sentence, ends the connection or answers ServFail, and
    what it answered, and no other, is there then and after a start."""
    need("cc")
    with tempfile.TemporaryDirectory() as folder:
        preloaded, refused = f"{folder}/refuse_growth.so", f"{folder}/refused"
        subprocess.run(["cc", "-O2", "-shared", "-fPIC", "-o", preloaded, f"{ROOT}/scripts/refuse_growth.c"], check=True)
        counts = {"at the start": 0, None: 0, SERV_FAIL: 0, 0: 0}
        for growth in range(1, GROWTHS):
            journal = f"{folder}/journal"
            for path in (journal, refused):
                if os.path.exists(path):
                    os.remove(path)
            before = ("env", f"LD_PRELOAD={preloaded}", f"GROWTH={growth}", f"REFUSED={refused}")
            with Served(folder, *ALLOWED, before=before) as server:
                if server.port is None:
                    want(server.ended() == 1 and server.words().count("\n") == 1, f"no sentence: {server.words()}")
                    counts["at the start"] += 1
                    continue
                started = os.path.exists(refused)
                code = server.code(added("a"))
                want(code in counts, f"an update without memory has the code {code}")
                if not os.path.exists(refused):
                    break
                counts[code] += not started
                is_there = code == 0
                want(server.has("a.example") == is_there and server.serial() == 1 + is_there, f"growth {growth}: {code}")
                want((os.path.getsize(journal) > HEAD) == is_there, f"growth {growth} and the journal")
                want(server.code(added("b")) == 0, "an update after one that had no memory")
                zone = whole(server)
            with Served(folder, *ALLOWED) as server:
                want(whole(server) == zone, "a start after an update that had no memory")
        else:
            fail("the growths come to no end")
    want(counts["at the start"] and counts[None] and counts[SERV_FAIL], f"growths are refused {counts}")
    print(f"nameserver: {growth - 1} growths refused, {counts[SERV_FAIL]} of them of an update that is answered ServFail")
