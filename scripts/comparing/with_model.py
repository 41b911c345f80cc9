"""Whether `dnsmsg` answers what the model in scripts/model does."""
import collections
import os
import random
import subprocess
import sys

from common import ROOT

sys.path.insert(0, os.path.join(ROOT, "scripts", "model"))
import answers  # noqa: E402
import random_messages  # noqa: E402
import random_queries  # noqa: E402
import random_updates  # noqa: E402
import random_words  # noqa: E402
import random_zones  # noqa: E402
from messages import CODES, read_message  # noqa: E402
from names import Refused, parse_name  # noqa: E402
from program import answer  # noqa: E402
from updates import applied  # noqa: E402
from writing import written  # noqa: E402
from zone_text import parsed, zone_text  # noqa: E402

# How many updates one zone takes that is held, and how many queries come after each.
TAKEN, ASKED = 20, 5


def ran(program, words, given):
    """Status and output of the program."""
    done = subprocess.run([program, *words], input=given, capture_output=True, check=False)
    return done.returncode, done.stdout.decode()


def headers():
    return ["header"], random.randbytes(12).hex().encode()


def messages():
    data = random_messages.message()
    data = random_messages.damaged(data) if random.random() < 0.3 else data
    limits = [0, 11, 12, 512, 65535, *(random.randrange(len(data) + 20) for _ in range(8))]
    limit = 65535 if len(data) > 16000 and random.random() < 0.7 else random.choice(limits)
    return random.choice([["read"], ["cut", str(limit)]]), data.hex().encode()


def zones():
    text, includes = random_zones.zone()
    origin = random.choice(["a.", "example.", "a", "www.a.", "-", "."])
    return ["zone", origin, *(f"{name}={included}" for name, included in includes.items())], text.encode()


def updates():
    text, origin = random_updates.zone(), random.choice(["example.", "example.", "EXAMPLE.", "example"])
    try:
        sets = parsed(text, {}, parse_name(origin, None))[1]
    except Refused:
        sets = {}
    sent = written(random_updates.update(sets), 65535).hex()
    return ["apply", origin, sent[: len(sent) - random.choice([1, 2])] if random.random() < 0.02 else sent], text.encode()


KINDS = {"headers": headers, "messages": messages, "zones": zones, "updates": updates, "calls": random_words.call}


def fields(sets):
    """The sets with each field of their records, more than their text says."""
    return sorted(map(repr, sets.items()))


def held_updates(tally):
    """What a zone that is held makes otherwise of updates one after the other, if anything; counts the codes."""
    from held import held
    text, numbers = random_updates.zone(), {name: number for number, name in CODES.items()}
    zone = held("example.", text)
    if isinstance(zone, int):
        tally[f"refused {zone}"] += 1
        return None
    origin, sets, _ = parsed(text, {}, parse_name("example.", None))
    for _ in range(TAKEN):
        sent, before = written(random_updates.update(sets), 65535), fields(sets)
        try:
            code, sets = applied(origin, 1, sets, read_message(sent))
            wanted = numbers[code]
        except Refused as refused:
            code = wanted = -refused.number
        (got, is_changed), lines = zone.update(sent), zone.lines()
        tally[str(code)] += 1
        if is_changed != (fields(sets) != before):
            return f"{sent.hex()} of {before}\n  is told as {is_changed} and leaves\n{fields(sets)}"
        # of two ANAME records a text says the last alone
        if got != wanted or lines not in (["33"], zone_text(origin, sets).splitlines()[1:]):
            return f"{sent.hex()} of {text!r}\n  is {got} {lines}\n  not {code} {zone_text(origin, sets)}"
        told = answers_differ(zone, answers.Zone(origin, 1, sets))
        if told:
            return told + f"\n  of {zone_text(origin, sets)}"
    return None


def answers_differ(zone, model):
    """What the zone answers otherwise to some queries, if anything."""
    for _ in range(ASKED):
        query, most = random_queries.query()
        got, wanted = zone.answer(query, most), answers.sent(model, query, most)
        if got != wanted:
            return f"{query.hex()} in {most}\n  is {got if isinstance(got, int) else got.hex()}\n  not {wanted.hex()}"
    return None


def compare_held(seed, count):
    """Asks so many zones that are held; answers the status."""
    random.seed(f"held {seed}")
    tally = collections.Counter()
    differ = [told for told in (held_updates(tally) for _ in range(count)) if told]
    codes = ", ".join(f"{it} {n}" for it, n in sorted(tally.items()))
    print(f"{count} zones of {TAKEN} updates and {TAKEN * ASKED} queries, {len(differ)} otherwise: {codes}", *differ[:3], sep="\n")
    return bool(differ)


def compare(program, seed, count):
    """Asks so many of each, of `program` or, without one, of zones that are held; answers the status."""
    if not program:
        return compare_held(seed, count)
    status = 0
    for name, kind in KINDS.items():
        random.seed(f"{name} {seed}")
        answers, differ = collections.Counter(), []
        for _ in range(count):
            words, given = kind()
            got, wanted = ran(program, words, given), answer(words, given)
            answers[got[1].split("\n")[0] if got[0] or name == "updates" else "no refusal"] += 1
            if got != wanted:
                differ.append(f"{words} {given!r}\n  is {got}\n  not {wanted}")
        tally = ", ".join(f"{it} {n}" for it, n in sorted(answers.items()))
        print(f"{count} {name}, {len(differ)} answered otherwise: {tally}")
        print(*differ[:3], sep="\n", end="\n" if differ else "")
        status |= bool(differ)
    return status
