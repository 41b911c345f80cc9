"""How `nameserver.py` answers queries: over UDP and TCP, in any pieces, damaged, and beside clients that are slow."""
import os
import random
import socket
import struct
import tempfile
import time

from served import (A, ANY, AXFR, HOST, NOT_AUTH, ORIGIN, TXT, Served, added, framed, fuzsbanel, query, taken,
                    transferred, unsigned, want)

DAMAGED, SLOW_ADDRESSES, SLOW_OF_EACH, UNREAD = 10_000, 5, 10, 3
# what the server allows
IN_ALL, OF_ONE_ADDRESS, SECONDS = 128, 16, 10
# how many seconds an answer may take on a busy machine, of a library that isn't optimised
SOON = 2


def try_queries():
    with tempfile.TemporaryDirectory() as folder, Served(folder) as server:
        rows = [(("www", "A"), "192.0.2.3\n192.0.2.4\n"), (("a.wild", "A"), "192.0.2.9\n"), (("no", "A"), ""),
                (("alias", "A"), "www.example.\n192.0.2.3\n192.0.2.4\n"), (("www", "TXT"), '"text"\n')]
        for (name, kind), printed in rows:
            for way in ("+notcp", "+tcp"):
                said = server.dig("+short", way, f"{name}.example", kind)
                want(sorted(said.split("\n")) == sorted(printed.split("\n")), f"dig {way} {name} {kind}: {said}")
        want("NXDOMAIN" in server.dig("no.example"), "a name that isn't there")
        want(server.dig("+short", "big.example", "TXT").count("\n") == 40, "what a datagram has no room for comes by TCP")
        for payload in (512, 1232, 4096, 65535):
            answer = server.by_datagram(query("big.example", TXT, payload))
            want(len(answer) <= 1232 and fuzsbanel.header(answer).truncated, f"{len(answer)} bytes in a datagram")
        # one set by UDP, all of them by TCP (RFC 8482, 4.1)
        for way, types in ((server.by_datagram, 1), (lambda it: server.by_stream(it)[0], 2)):
            answer = way(query("www.example", ANY))
            [asked, *records] = fuzsbanel.walk(answer)
            found = {it.record_type for it in records}
            want(asked.query_type == ANY and len(found) == types, f"ANY: {fuzsbanel.text(answer)}")
        want(fuzsbanel.header(server.by_datagram(unsigned(query("www.example")))).rcode == NOT_AUTH, "TSIG by UDP")
        want(server.code(unsigned(query("www.example"))) == NOT_AUTH, "TSIG by TCP")
        crowd = struct.pack("!HHHHHH", 7, 0, 9000, 0, 0, 0) + query("www.example")[12:] + b"\xc0\x0c\0\1\0\1" * 8999
        want(server.by_stream(crowd)[0] == struct.pack("!HHHHHH", 7, 0x8001, 0, 0, 0, 0), "a message of 9,000 questions")
        want(server.by_datagram(b"\0" * 11, 0.2) is None, "less than a header is answered")
        want(server.by_datagram(server.by_datagram(query("www.example")), 0.2) is None, "a response is answered")
    print("nameserver: queries by dig, sizes of datagrams, ANY and TSIG")


def try_pieces():
    """Several queries in one connection, whole, byte by byte, and with the sender's end closed."""
    messages = [query("www.example"), query("big.example", TXT), query("no.example"), query("alias.example")]
    with tempfile.TemporaryDirectory() as folder, Served(folder) as server:
        whole = server.by_stream(*messages)
        want([fuzsbanel.header(it).answers for it in whole] == [2, 40, 0, 3], "several queries in a connection")
        sent = b"".join(map(framed, messages))
        for size in (1, 2, 3, 50):
            with server.connected() as sock:
                sock.setsockopt(socket.IPPROTO_TCP, socket.TCP_NODELAY, 1)
                for at in range(0, len(sent), size):
                    sock.sendall(sent[at:at + size])
                    time.sleep(0.001)
                sock.shutdown(socket.SHUT_WR)
                want([taken(sock) for _ in messages] == whole, f"queries in pieces of {size} bytes")
                want(taken(sock) is None, "a connection that its client ended is ended")
        for nothing in (b"", b"\0" * 11, whole[0]):
            with server.connected() as sock:
                sock.sendall(framed(nothing))
                want(taken(sock) is None, "what gets no answer ends a connection")
        many = [query("www.example")] * 2000
        with server.connected() as sock:
            sock.sendall(b"".join(map(framed, many)))
            want(all(taken(sock) == whole[0] for _ in many), "2,000 queries at once")
    print("nameserver: several queries in a connection, in any pieces")


def damaged(messages):
    message = bytearray(random.choice(messages))
    for _ in range(random.choice([1, 1, 2, 5])):
        message[random.randrange(len(message))] = random.choice([0, 1, 0x3F, 0xC0, 0xFF, random.randrange(256)])
    if random.random() < 0.3:
        del message[random.randrange(len(message)):]
    return bytes(message)


def try_damaged():
    random.seed(1)
    messages = [query("www.example", A, 1232), query("www.example", ANY), query(ORIGIN, AXFR), added("www"),
                unsigned(added("www")), fuzsbanel.delete_rrset(7, ORIGIN, "no", A),
                fuzsbanel.zone_transfer(7, ORIGIN, "@ 300 SOA ns hostmaster 1 2 3 4 5"), fuzsbanel.delete_all(7, ORIGIN, "no"),
                fuzsbanel.compare_and_swap(7, ORIGIN, "www 300 A 192.0.2.3", "www 300 A 192.0.2.5")]
    words = "--update-from", HOST, "--transfer-to", HOST
    with tempfile.TemporaryDirectory() as folder:
        with Served(folder, *words) as server:
            send_damaged(server, messages)
            zone, size = whole(server), os.path.getsize(server.journal)
        with Served(folder, *words) as server:
            want(whole(server) == zone, "another zone after a start")
    print(f"nameserver: {DAMAGED} damaged messages, by which {size} bytes of updates were carried out")


def whole(server):
    with server.connected() as sock:
        sock.sendall(framed(query(ORIGIN, AXFR)))
        return transferred(sock)


def send_damaged(server, messages):
    good = query("ns.example")
    answer, stream = server.by_datagram(good), server.connected()
    with socket.socket(socket.AF_INET, socket.SOCK_DGRAM) as sock:
        for _ in range(DAMAGED // 100):
            for _ in range(50):
                sock.sendto(damaged(messages), (HOST, server.port))
                stream.sendall(framed(damaged(messages)))
                if taken(stream) is None:
                    # it had QR, or was less than a header
                    stream.close()
                    stream = server.connected()
            want(server.process.poll() is None, f"damaged messages ended the server: {server.words()}")
            want(server.by_datagram(good) == answer, "a good query after damaged ones")
    stream.close()


def try_slow():
    """Clients that send a byte a second, that send nothing and that don't read, on fifty connections: others are answered at
    once, and each is ended in its time."""
    good = query("www.example")
    with tempfile.TemporaryDirectory() as folder, Served(folder) as server:
        sources = [f"127.0.0.{2 + at // SLOW_OF_EACH}" for at in range(SLOW_ADDRESSES * SLOW_OF_EACH)]
        slow = [server.connected(source) for source in sources]
        for sock in slow[:UNREAD]:
            sock.sendall(framed(query("big.example", TXT)) * 300)
        began, dribbled = time.monotonic(), framed(query("w" * 60 + ".example"))
        for second in range(SECONDS + 2):
            for at, sock in enumerate(slow):
                try:
                    if at >= 2 * UNREAD:
                        sock.send(dribbled[second:second + 1])
                except ConnectionError:
                    want(second >= SECONDS - 1, "a slow client is ended too early")
            for _ in range(20):
                asked = time.monotonic()
                want(server.has("www.example") == 2, "an answer beside slow clients")
                want(time.monotonic() - asked < SOON, "a query waits for slow clients")
            time.sleep(max(began + second + 1 - time.monotonic(), 0))
        for sock in slow[UNREAD:]:
            want(is_ended(sock), "a slow client is not ended")
            sock.close()
        for sock in slow[:UNREAD]:
            want(sum(iter(lambda: len(sock.recv(1 << 20)), 0)) < 300 * 8000, "a client that doesn't read gets all answers")
            sock.close()
        want(server.by_datagram(good) is not None, "an answer after slow clients")
        many = [server.connected("127.0.0.9") for _ in range(OF_ONE_ADDRESS + 1)]
        want(is_ended(many[-1], SOON), "one address has more connections than it may")
        want(not is_ended(many[-2]), "one address has fewer connections than it may")
        want(server.has("www.example") == 2, "an answer beside an address with many connections")
        for sock in many:
            sock.close()
        time.sleep(0.5)
        all_of_them = [server.connected(f"127.0.0.{10 + at // OF_ONE_ADDRESS}") for at in range(IN_ALL)]
        with server.connected() as sock:
            want(is_ended(sock, SOON), "there are more connections than there may be")
            want(not is_ended(all_of_them[-1]), "there are fewer connections than there may be")
        for sock in all_of_them:
            sock.close()
        time.sleep(0.5)
        want(server.has("www.example") == 2, "an answer after too many connections")
    print(f"nameserver: {len(slow)} slow clients delay no other, and are ended")


def is_ended(sock, seconds=0.2):
    """Whether a connection ends by then."""
    sock.settimeout(seconds)
    try:
        while sock.recv(1 << 20):
            pass
    except TimeoutError:
        return False
    except ConnectionError:
        pass
    return True
