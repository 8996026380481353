#!/usr/bin/env python3
"""Brings the names of this repository's own definitions, lemmas and record fields to snake case: readField and read-field become read_field.

usage: python3 tools/respell.py [--dry] [FOLDER]      rewrites the .antt and .rt files, the edits and the pages below FOLDER (the repository, where none is named)

Run once, right behind port.py. Functions of src/, exported C names, strings, inputs and outputs keep their names. Names of the libraries and of goals are left.
"""
import re
import sys
from pathlib import Path

WORD = re.compile(r"(?<![\w◌'·-])[A-Za-z_][\w'₀-₉]*(?:-[\w'₀-₉]+)*(?![\w'])")
CAMEL = re.compile(r"^[a-z][a-z0-9]*[A-Z]|^[a-z][\w-]*[a-z0-9][A-Z]")
# Names that would fall together with another name of the same files, or be a reserved word: what each becomes instead.
OTHERS = {
    "are-bits": "all_bits",
    "is-sound": "table_is_sound",
    "octets-of": "octets_given",
    "slot-in": "slot_within",
}
# The same of names that are in snake case already: file (or folder) and name.
OTHERS_IN = {
    "crates/apdu_format/proofs": {"fields_fit": "fields_fit_law"},
    "crates/attribute_promises/proofs/Kept.antt": {"all_apart": "all_apart_law"},
    "crates/attribute_promises/proofs/GetValues.antt": {"rows_fit": "rows_fit_law"},
    "crates/attributes/proofs/ValueReply.antt": {"rows_fit": "rows_fit_law"},
    "crates/bench_lines/proofs/Form.antt": {"second_is": "second_place_is"},
    "crates/directory/proofs/DirectoryCases.antt": {"too_many": "too_many_rows"},
    "crates/directory/specs/DirectoryCases.antt": {"too_many": "too_many_rows"},
    "crates/reassembly/proofs": {"answer_back": "answer_back_law"},
    "crates/slots/proofs": {"low_bit": "low_bit_law"},
}


def snake(name):
    name = re.sub(r"(?<=[a-z0-9])([A-Z])", lambda m: "_" + m.group(1).lower(), name)
    return name.replace("-", "_")


def is_function_folder(path, crate):
    """Whether the file is the proof of a function: names with dashes there are goals'."""
    return path.parent != crate / "proofs" and "proofs" in path.parts


def foreign_names(texts):
    """The names that the files import from the libraries."""
    own = {p.parts[p.parts.index("crates") + 1] for p in texts}
    names = set()
    for text in texts.values():
        for module, items in re.findall(r"^\s*(?:ghost )?use ([^\s{]+?)\.\{([^}]*)\}", text, re.M):
            parts = module.split(".")
            if not (parts[0] == "Rattle" and len(parts) > 1 and parts[1] in own):
                names |= {it.strip().split(" as ")[0] for it in items.split(",")}
    return names


def declared_with_dash(texts, crates):
    names = set()
    for path, text in texts.items():
        crate = next(c for c in crates if c in path.parents)
        if path.suffix != ".antt" or is_function_folder(path, crate):
            continue
        code = re.sub(r"--.*", "", text)
        for line in code.splitlines():
            m = re.match(r"\s*(?:(?:pub|abbrev|unfoldable|private|data|record|module)\s+)*([a-z][\w'-]*-[\w'-]*)(?=[\s:({]|$)", line)
            if m:
                names.add(m.group(1))
        names |= {n for n in re.findall(r"(?:let|λ)\s+\(?([a-z][\w']*-[\w'-]+)", code)}
        names |= {n for n in re.findall(r"[(;{,]\s*([a-z][\w']*-[\w'-]+)\s*(?=[:=])", code)}
    return names


def main():
    dry = "--dry" in sys.argv
    rest = [a for a in sys.argv[1:] if a != "--dry"]
    root = Path(rest[0] if rest else ".").resolve()
    crates = sorted(p for p in (root / "crates").iterdir() if p.is_dir())
    paths = [p for c in crates for p in sorted(c.rglob("*")) if p.suffix in (".antt", ".rt") and "out" not in p.relative_to(c).parts]
    texts = {p: p.read_text(encoding="utf-8") for p in paths}
    foreign = foreign_names(texts)
    camel = set()
    for path, text in texts.items():
        if path.suffix == ".rt":
            text = re.sub(r'"(?:[^"\\]|\\.)*"', '""', text)
        for word in WORD.findall(text):
            if CAMEL.match(word) and word not in foreign and "-" not in word:
                camel.add(word)
    dashed = {n for n in declared_with_dash(texts, crates) if n not in foreign}
    words = {w for p, t in texts.items() if p.suffix == ".antt" for w in WORD.findall(re.sub(r"--.*", "", t))}
    to = {n: snake(n) for n in camel | dashed}
    twice = {snake(n) for n in camel}
    to.update({n: snake(n) + "_law" for n in dashed if snake(n) in twice or snake(n) in words})
    to.update({n: b for n, b in OTHERS.items() if n in to})
    to = {a: b for a, b in to.items() if a != b}

    # names that fall together
    seen = {}
    for a, b in to.items():
        seen.setdefault(b, []).append(a)
    faults = [f"{b}: {', '.join(sorted(names))}" for b, names in sorted(seen.items()) if len(names) > 1]
    for path, text in texts.items():
        words = set(re.findall(r"(?<![.\w◌'-])" + WORD.pattern, re.sub(r"(?m)(--|//).*", "", text)))
        for word in sorted(words & set(to)):
            if to[word] in words:
                faults.append(f"{path.relative_to(root)}: {word} and {to[word]}")
    print("\n".join(faults), file=sys.stderr)
    print(f"respell: {len(to)} names, {len(faults)} that fall together")

    def turn(path, text):
        crate = next((c for c in crates if c in path.parents), None)
        rt = path.suffix == ".rt"
        mine = to
        if path.suffix == ".antt" and is_function_folder(path, crate):
            goals = set(re.findall(r"^(?:abbrev )?(?:pub )?([a-z][\w'-]*-[\w'-]*) :", text, re.M))
            mine = {a: b for a, b in to.items() if a not in goals}
        here = str(path.relative_to(root))
        mine = dict(mine)
        for start, more in OTHERS_IN.items():
            if here.startswith(start):
                mine.update(more)
        text = re.sub(r"«([a-z][a-z0-9]*(?:_[a-z0-9]+)+)»", r"\1", text)

        def one(m):
            return mine.get(m.group(0), m.group(0))

        if not rt:
            return WORD.sub(one, text)
        out = []
        for line in text.splitlines(keepends=True):
            ghost = re.match(r"\s*(ghost |requires|ensures|//)", line) or "≡" in line
            names = one if ghost else (lambda m: m.group(0) if "-" in m.group(0) else one(m))
            parts = re.split(r'("(?:[^"\\]|\\.)*")', line) if not ghost else [line]
            out.append("".join(p if p.startswith('"') else WORD.sub(names, p) for p in parts))
        return "".join(out)

    if dry:
        return
    changed = 0
    for path, text in texts.items():
        new = turn(path, text)
        if new != text:
            path.write_text(new, encoding="utf-8")
            changed += 1
    print(f"respell: {changed} files")


main()
