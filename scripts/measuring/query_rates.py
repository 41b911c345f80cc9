"""How many queries `nameserver.c` answers in a second of one processor, beside BIND's `named`, of one zone over loopback."""
import os
import socket
import struct
import subprocess
import sys
import time

HOST, ORIGIN = "127.0.0.1", "example."
NAMES, QUERIES, AT_ONCE = 10_000, 200_000, 32
TICKS = os.sysconf("SC_CLK_TCK")

SETTINGS = """options {
    directory "%s"; pid-file "pid"; session-keyfile "key"; recursion no; notify no; dnssec-validation no;
    listen-on port %d { 127.0.0.1; }; listen-on-v6 { none; }; minimal-responses no-auth; rate-limit { };
};
controls { };
zone "example." { type primary; file "zone"; };
"""


def zone():
    """A zone of addresses, in the order of its names."""
    names = "".join(f"h{at:05} 300 A 10.0.{at >> 8}.{at & 255}\n" for at in range(NAMES))
    return "@ 300 SOA ns hostmaster 1 7200 3600 1209600 60\n@ 300 NS ns\nns 300 A 192.0.2.1\n" + names


def query(at):
    """A query for the address of one of its names, and every tenth time for one that isn't there."""
    label = f"{'x' if at % 10 == 9 else 'h'}{at * 7919 % NAMES:05}".encode()
    return struct.pack("!HHHHHH", at & 0xFFFF, 0, 1, 0, 0, 0) + b"\6" + label + b"\7example\0\0\1\0\1"


def free_port():
    """A port that nothing listens at."""
    with socket.socket(socket.AF_INET, socket.SOCK_DGRAM) as sock:
        sock.bind((HOST, 0))
        return sock.getsockname()[1]


def processor_seconds(process):
    """What a process has taken so far, in the system too."""
    with open(f"/proc/{process}/stat", encoding="utf-8") as file:
        fields = file.read().rpartition(")")[2].split()
    return (int(fields[11]) + int(fields[12])) / TICKS


def asked(sock, queries):
    """Asks some at once, and hears an answer to each."""
    for one in queries:
        sock.send(one)
    ids = {sock.recv(512)[:2] for _ in queries}
    if ids != {one[:2] for one in queries}:
        sys.exit("measure: a query has no answer of its own")


def rate(command, port):
    """How many queries a server answers in a second of the processor that it may use."""
    with subprocess.Popen(["taskset", "-c", "0", *command], stdout=subprocess.DEVNULL, stderr=subprocess.DEVNULL) as server:
        try:
            with socket.socket(socket.AF_INET, socket.SOCK_DGRAM) as sock:
                sock.connect((HOST, port))
                sock.settimeout(5)
                for _ in range(100):
                    try:
                        asked(sock, [query(0)])
                        break
                    except OSError:
                        time.sleep(0.1)
                began = processor_seconds(server.pid)
                for at in range(0, QUERIES, AT_ONCE):
                    asked(sock, [query(one) for one in range(at, at + AT_ONCE)])
                return QUERIES / (processor_seconds(server.pid) - began)
        finally:
            server.terminate()


def measure(server, folder):
    """Prints both rates, and the one as a part of the other."""
    with open(f"{folder}/zone", "w", encoding="utf-8") as file:
        file.write(zone())
    port = free_port()
    ours = rate([server, f"{folder}/zone", ORIGIN, HOST, str(port), f"{folder}/journal"], port)
    port = free_port()
    with open(f"{folder}/settings", "w", encoding="utf-8") as file:
        file.write(SETTINGS % (folder, port))
    theirs = rate(["named", "-g", "-n", "1", "-c", f"{folder}/settings"], port)
    print(f"nameserver.c {ours:,.0f} queries a second of processor, named {theirs:,.0f}: {ours / theirs:.2f}")
