#!/usr/bin/env python3
"""Counts the places of the older language's forms in crates/*/src, for docs/DESIGN-PASS.md.

    tools/count_forms.py [COMMIT] [--list]

Without a commit it reads the files as they stand; with --list it prints each place. A place is a line of code, or a function.
"""
import glob
import re
import subprocess
import sys

NUMBERS = "kind|reason|state|code|what|low|high"
BY_HAND = (
    "both|as_index|as_u64|as_u32|one_if|flag|mark|minus|least|or_default|is_taken|is_shelved|below|has|kind_no|refusal_number|"
    "reason_number|code_of|state_of|is_ready|is_closed|is_wrong|is_mistake|is_of_the_day|expected|shown|length_shown|count|put"
)
# functions that differ only in a type, a size, a constant or a constructor
TWINS = (
    "find|find_vacant|shift_order|shift_waiters|order_blank_from|ids_blank_from|queue_blank_from|ids_below|slots_fit|slots_dated|"
    "u32_at|u64_at|put_u32|put_u64|one_if|flag|mark|drain|end|pass|play|broken|deliver|one_more|idle_takes|let_go_takes|"
    "opened_at_takes|value_takes|id_takes|number_up_to|small_number|say|number"
)


def sources(commit):
    if not commit:
        for name in sorted(glob.glob("crates/*/src/**/*.rt", recursive=True)):
            with open(name, encoding="utf-8") as file:
                yield name, file.read()
        return
    listed = subprocess.run(["git", "ls-tree", "-r", "--name-only", commit, "crates"], capture_output=True, text=True, check=True)
    for name in listed.stdout.split("\n"):
        if re.fullmatch(r"crates/[a-z_]+/src/.*\.rt", name):
            yield name, subprocess.run(["git", "show", f"{commit}:{name}"], capture_output=True, text=True, check=True).stdout


def lines(pattern):
    return lambda name, text: [f"{name}:{i}: {line.strip()}" for i, line in enumerate(text.split("\n"), 1) if re.search(pattern, line) and not line.lstrip().startswith("//")]


def items(pattern, test):
    def found(name, text):
        at = lambda it: text.count("\n", 0, it.start()) + 1
        return [f"{name}:{at(it)}: {it[1]}" for it in re.finditer(pattern, text, re.M | re.S) if test(it)]

    return found


def enums_of_two(it):
    body = re.sub(r"//.*", "", it[2])
    variants = [v.strip() for v in re.split(r",(?![^(]*\))", body) if v.strip()]
    return len(variants) == 2 and sum("(" in v for v in variants) >= 1


def flagged(it):
    body = re.sub(r"//.*", "", it[2])
    fields = [f.strip() for f in re.split(r",(?![^(\[]*[)\]])", body) if f.strip()]
    return any(f.endswith(": bool") for f in fields) and any(not f.endswith(": bool") for f in fields)


def many_columns(it):
    return len(re.findall(r"\b(?:head: Head|numbers: &|ids: &|generations: &|times: &|states: &|available: &|waiters: &|out: &mut \[u8\]|n: u32|scratch: &mut)", it[2])) >= 3


FORMS = [
    ("1 enums of two variants, one with a value", items(r"^(?:pub )?enum (\w+) \{(.*?)^\}", enums_of_two)),
    ("1 structs with a flag beside values", items(r"^(?:pub )?struct (\w+)(?:<[^{;]*>)? \{(.*?)^\}", flagged)),
    ("1 parameters and fields that are numbers of a kind, a reason or a state", lines(rf"\b({NUMBERS}): u8\b")),
    ("1 calls with such a number", lines(r"(?:emit|reply|close_connection|set_state|create_pending_connection|tell_all|in_state|in_time)\([^)]*, \d+[,)]")),
    ("2 functions of a pair or more of twins", lines(rf"\bfn ({TWINS})[(<]")),
    ("3 loops with while or loop", lines(r"^ *(?:while\b|loop\b)")),
    ("4 words and conversions by hand", lines(rf"\bfn ({BY_HAND})[(<]")),
    ("4 printing by descriptor", lines(r"\bio::(?:write_all|print_decimal)\(")),
    ("5 functions with three or more of head, numbers, times, states, waiters, out, n, scratch", items(r"^ *(?:pub )?fn (\w+)(?:<[^(]*>)?\((.*?)\)(?: ->[^\n]*)?$", many_columns)),
    ("5 clauses with Whole", lines(r"\brequires.*\bWhole\b")),
    ("6 lengths beside a buffer", lines(r"^ *(?:pub )?(?:count|length|available_count|waiting_count): usize")),
    ("6 parallel arrays as parameters or fields", lines(r"\b(?:numbers|ids|generations|times|states|available): &?(?:mut )?(?:Numbers\b|Times\b|States\b|\[u\d+; SLOTS\])")),
    ("7 switches on which step to run", lines(r"\b(?:is_entry|is_writing): bool|\bwhich: \w+")),
]


def main(arguments):
    commit = next((it for it in arguments if not it.startswith("-")), None)
    found = {label: [] for label, _ in FORMS}
    for name, text in sources(commit):
        for label, find in FORMS:
            found[label] += find(name, text)
    for label, places in found.items():
        print(f"{len(places):4}  {label}")
        if "--list" in arguments:
            print("".join(f"      {it}\n" for it in places), end="")


main(sys.argv[1:])
