"""What reading and writing a message cost, beside trust-dns-proto, and beside the least that they take."""
from statistics import geometric_mean

from counting import memory_of_one, of_one
from messages import ORDINARY, all_messages

NAMES = [name for name, *_ in all_messages()]
ORDINARY_NAMES = [make.__name__ for make in ORDINARY]
SHOWN = [*ORDINARY_NAMES, "chained64", "bare64", "plain64", "owners16"]

# what is measured, its heading, and how many times the instructions of the other library it may take
MEASURED = [("read", "Read", 0.65), ("write", "Written", 0.45)]
HEADINGS = ["Instructions", "of trust-dns", "Ratio", "of the limit", "Allocations", "of trust-dns", "Bytes allocated",
            "of trust-dns"]


def costs(program, what, message, times):
    """Instructions, allocations and bytes allocated of one loop; nothing of what is refused or of no program."""
    count = program and of_one(program, what, message, times)
    return count and [count, *memory_of_one(program, what, message)]


def cells(own, other):
    """The cells of two costs, one beside the other in each."""
    return [cell for pair in zip(own or [None] * 3, other or [None] * 3)
            for cell in (f"{count:,.0f}" if count else "-" for count in pair)]


def table(program, trust_dns, limit, messages, what, heading, goal):
    """Prints a row for each message, and the geometric means of the ratios of the ordinary ones."""
    print(f"| {heading} | Bytes |", " | ".join(HEADINGS), "|")
    print("|---" * (2 + len(HEADINGS)) + "|", flush=True)
    ratios, above = {}, {}
    for name, message, times in messages:
        own, other = (costs(one, what, message, times) for one in (program, trust_dns))
        if own and other:
            ratios[name] = own[0] / other[0]
        if own and (least := limit and of_one(limit, what, message, times)):
            above[name] = own[0] / least
        first, second, *rest = cells(own, other)
        ratio = f"{ratios[name]:.2f}" + (f", above {goal}" if ratios[name] > goal else "") if name in ratios else "-"
        times_limit = f"{above[name]:.1f}" if name in above else "-"
        print("|", " | ".join([f"`{name}`", f"{len(message):,}", first, second, ratio, times_limit, *rest]), "|", flush=True)
    means = [[some[name] for name in ORDINARY_NAMES if name in some] for some in (ratios, above)]
    ratio, times_limit = (f"{geometric_mean(some):.3f}" if some else "-" for some in means)
    print(f"| geometric mean of the {max(map(len, means))} ordinary | | | | {ratio} | {times_limit} | | | | |")
    print()


def measure(program, trust_dns, limit, names):
    """Prints what each of these messages costs, or each of those in docs/SPEED.md."""
    messages = [one for one in all_messages() if one[0] in (names or SHOWN)]
    for what, heading, goal in MEASURED:
        table(program, trust_dns, limit, messages, what, heading, goal)
    for name, message, times in messages:
        if memory := of_one(program, "memory", message, times):
            print(f"`{name}`: {memory:,} instructions for the memory of the questions' names alone", flush=True)
