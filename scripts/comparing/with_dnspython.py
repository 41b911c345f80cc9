"""Whether `dnsmsg` reads random messages and zone texts as dnspython does."""
import random
import subprocess

import messages
import zones


def run(program, words, text):
    """Status and output of the program."""
    ran = subprocess.run([program, *words], input=text.encode(), capture_output=True, check=False)
    return ran.returncode, ran.stdout.decode()


def cut(program, wire, limit):
    status, text = run(program, ["cut", str(limit)], wire.hex())
    return bytes.fromhex(text) if status == 0 else None


def whole_agrees(program, wire):
    """Whether both refuse these bytes, or read the same message."""
    theirs, ours = messages.read(wire), cut(program, wire, 65535)
    if theirs is None or not messages.is_asked(theirs):
        return ours is None
    return ours is not None and messages.meaning(messages.read(ours)) == messages.meaning(theirs)


def cut_agrees(program, wire, limit):
    """Whether there is a cut where header and questions have room, with the head and a front of each section."""
    theirs, short = messages.read(wire), cut(program, wire, limit)
    if short is None:
        return limit < messages.room(theirs)
    (head, sections), (whole, all_sections) = messages.meaning(messages.read(short)), messages.meaning(theirs)
    fronts = all(front == section[: len(front)] for front, section in zip(sections, all_sections))
    return fronts and sections[0] == all_sections[0] and len(short) <= limit and head[:2] == whole[:2]


def message_agrees(program):
    """Nothing, or the message that is read otherwise."""
    wire = messages.message()
    limit = random.randrange(12, len(wire) + 5)
    return None if whole_agrees(program, wire) and cut_agrees(program, wire, limit) else f"{limit} {wire.hex()}"


def changed_agrees(program):
    """Nothing, or the bytes that are read otherwise."""
    wire = messages.changed(messages.message())
    return None if whole_agrees(program, wire) else wire.hex()


def zone_agrees(program):
    """Nothing, or the text that is read otherwise."""
    text = zones.zone()
    status, answer = run(program, ["zone", "-"], text)
    return None if status == 0 and zones.printed(answer) == zones.meaning(text) else text


def compare(program, seed, count):
    """Asks so many of each; answers the status."""
    random.seed(seed)
    status = 0
    for name, agrees in (("messages", message_agrees), ("changed messages", changed_agrees), ("zones", zone_agrees)):
        differ = [it for it in (agrees(program) for _ in range(count)) if it is not None]
        print(f"{count} {name}, {len(differ)} read otherwise", *differ[:3], sep="\n")
        status |= bool(differ)
    return status
