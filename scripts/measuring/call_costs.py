"""What calls of the library for C cost, beside the library's own, ldns and trust-dns-proto."""
from counting import of_one
from messages import all_messages

SHOWN = ["small_query", "answer_cname", "referral", "answer30", "dnssec_answer", "update", "chain_in_data18", "chain_in_data64"]

# what takes a quarter of an hour to count: by places each name follows its 8,180 pointers anew
TOO_LONG = {("chain_in_data64", "walk")}

# each column: its heading, which program, and what it loops
COLUMNS = [
    ("`from_vec`", "own", "read"),
    ("`fuzsbanel_check`", "archive", "check"),
    ("ldns", "ldns", "read"),
    ("trust-dns", "trust-dns", "read"),
    ("by places", "archive", "walk"),
    ("`fuzsbanel_walk`", "archive", "whole"),
    ("cut", "own", "cut"),
    ("`fuzsbanel_cut`", "archive", "cut"),
    ("trust-dns", "trust-dns", "cut"),
]


def measure(programs, names):
    """Prints what each call costs for each of these messages; `programs` has the program of each library that is there."""
    print("| Message |", " | ".join(heading for heading, *_ in COLUMNS), "|")
    print("|---" * (1 + len(COLUMNS)) + "|", flush=True)
    for name, message, times in all_messages():
        if name in (names or SHOWN):
            counts = [
                programs[of] and (name, what) not in TOO_LONG and of_one(programs[of], what, message, times)
                for _, of, what in COLUMNS
            ]
            print("|", " | ".join([f"`{name}`", *(f"{count:,}" if count else "-" for count in counts)]), "|", flush=True)
