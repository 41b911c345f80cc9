"""What a record of an update costs."""
import updates
from counting import instructions

NAMES = 10_000
RECORDS = 1_000


def cost(program, words, text):
    """Instructions of a run, and its first line."""
    count, printed = instructions(program, words, text.encode())
    return count, printed.split(b"\n", 1)[0].decode()


def doubled(program, names):
    for name in names or updates.SHAPES:
        costs = []
        for count in (RECORDS, 2 * RECORDS):
            lines, message = updates.SHAPES[name](count)
            before = cost(program, ["apply", "example.", updates.EMPTY], updates.START + lines)[0]
            after, code = cost(program, ["apply", "example.", message], updates.START + lines)
            costs.append((after - before) / count)
        print(f"{name}: {costs[0]:.0f} and {costs[1]:.0f} a record, {2 * costs[1] / costs[0]:.2f} times in all ({code})", flush=True)


def measure(program, kinds, is_doubled):
    """Prints what a record of each of these kinds costs, or of each of all; or the shapes, at twice the records."""
    if is_doubled:
        doubled(program, kinds)
        return
    zone = updates.zone(NAMES)
    empty = cost(program, ["apply", "example.", updates.EMPTY], zone)
    shown = cost(program, ["zone", "example."], zone)
    print(f"the copy: {empty[0] - shown[0]} in all, {(empty[0] - shown[0]) / NAMES:.0f} a name ({empty[1]})", flush=True)
    for name in kinds or updates.KINDS:
        message, more = updates.of_kind(name, RECORDS)
        before = cost(program, ["apply", "example.", updates.EMPTY], zone + more)[0] if more else empty[0]
        after = cost(program, ["apply", "example.", message], zone + more)
        print(f"{name}: {(after[0] - before) / RECORDS:.0f} a record ({after[1]})", flush=True)
