#!/usr/bin/env python3
"""Counts, in crates/*/src, the places that docs/DESIGN-PASS.md speaks of: `python3 tools/count_forms.py [--list] [TOP]`.

A place is a line for points 1, 3, 4 and 7, a function for 5 (parameters) and a pair of functions for 2."""
import collections
import glob
import os
import re
import sys

args = [it for it in sys.argv[1:] if not it.startswith("--")]
os.chdir(args[0] if args else ".")
SHOW = "--list" in sys.argv
FILES = sorted(glob.glob("crates/*/src/*.rt"))
TEXT = {it: open(it, encoding="utf-8").read() for it in FILES}
LINES = [
    (file, number, line)
    for file, text in TEXT.items()
    for number, line in enumerate(text.split("\n"), 1)
    if not line.lstrip().startswith("//")
]
ITEMS = re.compile(r"^\s*(?:pub(?:\(crate\))? )?(?:extern \"C\" )?fn ([a-z_0-9]+)(?:<[^>]*>)?\(([^)]*)\)", re.M | re.S)


def report(name, places):
    print(f"{len(places):5} {name}")
    if SHOW:
        by = collections.Counter(it[0].split("/")[1] for it in places)
        print("      " + ", ".join(f"{crate} {n}" for crate, n in by.items()))
        for file, number, what in places:
            print(f"        {file}:{number}: {what.strip()}")


def lines(pattern, but=None):
    found = [it for it in LINES if re.search(pattern, it[2])]
    return [it for it in found if not (but and re.search(but, it[2]))]


def enums():
    """The enums of the shape of Option or Result: a case that refuses or has nothing, beside one or more that have something."""
    empty = re.compile(r"^    (Refused\w*|No[A-Z]\w*|Other|Stay|Silent|Done|RecordOutOfRange)\b", re.M)
    found = []
    for file, text in TEXT.items():
        for m in re.finditer(r"^(?:pub(?:\(crate\))? )?enum (\w+) \{(.*?)^\}", text, re.M | re.S):
            if empty.search(m[2]) and not m[1].endswith("Refusal"):
                found.append((file, text[: m.start()].count("\n") + 1, m[0].split("\n")[0]))
    return found


def functions():
    for file, text in TEXT.items():
        for m in ITEMS.finditer(text):
            end = text.find("\n}\n", m.end())
            yield file, text[: m.start(1)].count("\n") + 1, m[1], m[2], text[m.end() : end]


def long_lists(n):
    return [(f, l, name) for f, l, name, given, _ in functions() if len(re.findall(r"\w+:", given)) >= n]


def shape(body):
    body = re.sub(r"ensures .*?\n\{", "{", body, flags=re.S)
    body = re.sub(r"//.*", "", body)
    return re.sub(r"\b\d+\b", "N", re.sub(r"\b(?!if|while|for|return|let|mut|match|as|true|false|else)[A-Za-z_]\w*\b", "x", body))


def twins():
    """Functions whose bodies are the same but for names and numbers, of at least three lines."""
    by = collections.defaultdict(list)
    for file, line, name, _, body in functions():
        code = shape(body[body.find("\n{") :] if "\n{" in body else body)
        code = re.sub(r"\s+", " ", code)
        if len(code) > 60:
            by[code].append((file, line, name))
    return [(v[0][0], v[0][1], f"{v[0][2]} ~ " + ", ".join(f"{it[2]} ({it[0]}:{it[1]})" for it in v[1:])) for v in by.values() if len(v) > 1]


def shared_facts(n):
    """Facts that stand in the `requires` of n functions of a crate or more."""
    facts = collections.defaultdict(list)
    for file, text in TEXT.items():
        for m in re.finditer(r"requires \{ (.*?) \}\n", text, re.S):
            for part in m[1].split("×"):
                fact = re.sub(r"\s+", " ", part.strip().strip("()"))
                facts[file.split("/")[1], fact].append((file, text[: m.start()].count("\n") + 1, fact))
    return [it for places in facts.values() if len(places) >= n for it in places]


print("point 1")
report("enums of the shape of Option or Result", enums())
report("flags with a value beside them (fields)", lines(r"^\s+(pub )?(has_\w+|known|present|valid|is_open): bool,"))
report("numbers for refusals (constants, fields, parameters, results of u8)", lines(r"fn \w*(refusal|status)\w*\(.*-> u8|^\) -> u8|(fn \w*refus\w*|faulty|judged|no_octets|packed|send_status)\(.*\b(number|refusal|status): u8|\b(fault|status): u8,|Refused\(u8|RefusedAt\(u8|NOT_A_LINE: u8|^pub const (?!LARGEST|LONGEST|LOWEST|HIGHEST)\w+: u8 = \d+;|^const (ACCESS_DENIED|ARGUMENT_ERROR|COMPLEXITY_LIMITATION): u8", r"u8::from\("))
report("numbers for kinds", lines(r"\bkind: u(8|64)\b|\bk: u64\b|choice: u64", r"fn packed"))
print("point 2")
report("functions that are alike but for names and numbers", twins())
print("point 3")
report("loops that count by hand (`while`)", lines(r"^\s*('\w+: )?while ", r"while let"))
print("point 4")
report("equality, copying and conversion by hand", lines(r"\bfn (same_\w+|all_zero|wide|narrow\w*|bit|area_word|known_kind|flag_word|\w+_closed|free_slot|no_row|no_rows|no_entries|no_beacon)\b"))
print("point 5")
report("functions with seven parameters or more", long_lists(7))
report("facts that stand in three `requires` of a crate or more", shared_facts(3))
print("point 6")
report("arrays with a count beside them (fields)", lines(r"^\s+(pub )?(count|used|held|place|octets|lines|size): (usize|u64),"))
print("point 7")
report("enums that say which test or step to run", lines(r"^(pub(\(crate\))? )?enum (Sweep|Call|SetUp|Decision)\b"))
print("point 8")
proofs = glob.glob("crates/*/proofs/**/*.antt", recursive=True)
print(f"{sum(open(it, encoding='utf-8').read().count(chr(10)) for it in proofs):5} lines of proofs in {len(proofs)} files")
print(f"{sum(text.count(chr(10)) for text in TEXT.values()):5} lines of src in {len(TEXT)} files")
