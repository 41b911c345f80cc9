"""Random calls of the program, many with wrong words or with input that can't be read."""
import random

from random_messages import chance, message

LIMITS = ["0", "49", "007", "65535", "65536", "-1", "+5", "", "x", "1e3", "99999999999999999999", "٣", " 5"]
ORIGINS = ["example.", "a", "-", ".", "@", "", "a..b", "é", "a" * 64, r"\065", r"\300", "--"]
INCLUDED = ["f=x 5 A 1.2.3.4\n", "f=", "=", "f", "", "f=a=b", "g= 5\n", "f=$TTL 5\n"]
TEXTS = [b"", b"a 60 A 192.0.2.1\n", b"$INCLUDE f\nb 60 A 192.0.2.2\n"]
TEXTS += [b"\xff\n", b"a 60 TXT \xc3\xa9\n", b"a 60 TXT \xc3\n", b"\xef\xbb\xbf\n"]


def octets():
    """A message or a header in hexadecimal, often not quite."""
    text = (message() if chance(0.7) else random.randbytes(random.choice([11, 12, 12, 12, 13]))).hex()
    if chance(0.3):
        text = text.upper()
    if chance(0.5):
        at = random.randrange(len(text) + 1)
        text = text[:at] + random.choice([" ", "\n", "\r\n", "\t", "  \n", "g", "-", "\v", "0", "0x", "é", "\0"]) + text[at:]
    return text


def words():
    command = random.choice(["header", "read", "cut", "zone", "apply", "zone", "cut"])
    if command == "cut":
        return [command, random.choice(LIMITS)]
    if command == "zone":
        return [command, random.choice(ORIGINS), *random.choices(INCLUDED, k=random.choice([0, 0, 1, 2]))]
    if command == "apply":
        return [command, random.choice(ORIGINS), random.choice(["", message().hex(" ", 2), message().hex(), message().hex()[1:], "xx"])]
    return [command]


def call():
    """Words and input."""
    found = words()
    if chance(0.1):
        found = random.choice([[], found[:-1], [*found, "x"], [found[0].upper(), *found[1:]], ["help"], [""]])
    given = random.choice(TEXTS) if found and found[0] in ("zone", "apply") else octets().encode()
    return found, given
