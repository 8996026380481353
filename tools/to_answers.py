#!/usr/bin/env python3
"""Turns the Proof.antt files of a crate, which close a walk of the code by hand, into Invariants.antt and Answers.antt.

usage: python3 tools/to_answers.py NAMES.json CRATE_FOLDER [FUNCTION..]      NAMES.json is what `rt check --generated DIR --old-names` writes

An answer that only says `search rules` goes: the check tries that by itself. What it can't turn it names, and leaves that file.
"""
import json
import re
import sys
from pathlib import Path

# crate::path::fn -> its parameters' names
PARAMS = {}
CHAIN = re.compile(r"(?<![\w◌'.-])([A-Za-z_λμκ][\w'₀-₉]*)((?:\.[\w'₀-₉-]*[\w'₀-₉])+)")


def flat(name):
    return name.replace("-", "_")


def clauses_of(root):
    """crate::path::fn -> (names of its requires, names of its ensures), of every crate."""
    found = {}
    for crate in sorted((root / "crates").iterdir()):
        src = crate / "src"
        for path in sorted(src.rglob("*.rt")) if src.is_dir() else []:
            parts = list(path.relative_to(src).with_suffix("").parts)
            module = [p for p in parts if p not in ("lib", "main", "mod")]
            text = path.read_text()
            for m in re.finditer(r"^( *)(?:pub(?:\([a-z]+\))? )?(?:const )?(?:unsafe )?(?:extern \"C\" )?fn (\w+)", text, re.M):
                rest = text[m.end() :]
                end = re.search(r"^%s\{$|\{\s*$|\{ *\}|;$" % m.group(1), re.sub(r"(?m)^(\s*(?:requires|ensures)\b.*)$", lambda k: k.group(1).replace("{", "‹").replace("}", "›"), rest), re.M)
                head = rest[: end.start()] if end else rest
                names = {"requires": [], "ensures": []}
                for kind, name in re.findall(r"^\s*(requires|ensures)\*?(?: (\w+))? *\{", head, re.M):
                    names[kind].append(name)
                found["::".join([crate.name, *module, m.group(2)])] = (names["requires"], names["ensures"])
                given = re.match(r"(?:<[^>]*>)?\s*\(([^)]*(?:\([^)]*\)[^)]*)*)\)", rest)
                if given:
                    parts = [x.strip().split(":")[0].replace("mut ", "").strip() for x in re.split(r",(?![^<\[]*[>\]])", given.group(1)) if x.strip()]
                    PARAMS["::".join([crate.name, *module, m.group(2)])] = parts
    return found


def pieces_of(tuple_text):
    """The parts of '(a, (b, c))' as [a, b, c], as many as there are."""
    t = tuple_text.strip()
    if not (t.startswith("(") and t.endswith(")")):
        return [t]
    depth, parts, last = 0, [], 1
    for i, ch in enumerate(t):
        if ch in "([{":
            depth += 1
        elif ch in ")]}":
            depth -= 1
            if depth == 0 and i != len(t) - 1:
                return [t]
        elif ch == "," and depth == 1:
            parts.append(t[last:i].strip())
            last = i + 1
    rest = t[last:-1].strip()
    if rest:
        parts.append(rest)
    return parts


def split_clauses(text, n):
    parts = pieces_of(text)
    while 1 < len(parts) < n:
        more = pieces_of(parts[-1])
        if len(more) < 2:
            break
        parts = parts[:-1] + more
    return parts if len(parts) == n else None


def by_index(indices, names):
    """`.1.0` of nested pairs as a clause's name, and what is left of the indices."""
    n = len(names)
    k, rest = 0, list(indices)
    while k < n - 1 and rest:
        if rest[0] == "0":
            return names[k], rest[1:]
        if rest[0] == "1":
            k, rest = k + 1, rest[1:]
            continue
        return None, indices
    if k == n - 1:
        return names[k], rest
    return None, indices


class Turner:
    def __init__(self, entry, clauses, function):
        self.entry, self.clauses, self.function = entry, clauses, function
        self.params = PARAMS.get(function, [])
        self.places = {p[0]: p for p in entry["places"]}
        self.arm_at = {p[0]: arm for p, arm in zip(entry["places"], entry["arms"]) if arm}
        # at each place: the step that says what the type of a live variable says -> the variable
        self.typed = {p[0]: {flat(step): var for var, step in row} for p, row in zip(entry["places"], entry["typed"])}

    def path_to(self, place):
        steps = {}
        while place is not None:
            name, parent, (old, new), callee, fields = self.places[place]
            steps.setdefault(flat(old), (new, callee, {flat(a): b for a, b in fields}))
            place = parent
        return steps

    def arms_to(self, place):
        """What an arm of a match binds, at a place behind it: ((arm, field), step, fields of the step)."""
        found = []
        while place is not None:
            arm = self.arm_at.get(place)
            if arm:
                found += [((arm[0], field), step, old) for field, step, old in arm[2]]
            place = self.places[place][1]
        return found

    def chain(self, m, steps, typed):
        head, segments = m.group(1), [s for s in m.group(2).split(".")[1:]]
        had = "before" in segments
        segments = [s for s in segments if s != "before"]
        if not segments:
            return head
        first = flat(segments[0])
        if first not in steps and first.endswith(("_law", "_lem")):
            first = first[:-4]
        for field, step, old in self.arms:
            if first == flat(step) and segments[1 : 1 + len(old)] == old:
                return ".".join([head, field[0], field[1], *segments[1 + len(old) :]])
        if first in typed and len(segments) > 1 and segments[1] == "given":
            segments = ["type_inv", typed[first], *segments[2:]]
        elif first in steps and (head == "c" or had or len(segments) > 1):
            new, callee, fields = steps[first]
            rest = segments[1:]
            if rest and flat(rest[0]) in fields:
                rest[0] = fields[flat(rest[0])]
            if rest and rest[0] == "ensures" and callee in self.clauses and len(self.clauses[callee][1]) > 1:
                name, left = by_index(rest[1:], self.clauses[callee][1])
                if name:
                    rest = ["ensures", name, *left]
            segments = [new, *rest]
        elif segments[0] == "requires" and len(self.clauses.get(self.function, ([], []))[0]) > 1:
            name, left = by_index(segments[1:], self.clauses[self.function][0])
            if name:
                segments = ["requires", name, *left]
        return ".".join([head, *segments])

    def body(self, text, place):
        steps = self.path_to(place)
        typed = self.typed[place]
        self.arms = self.arms_to(place)
        text = CHAIN.sub(lambda m: self.chain(m, steps, typed), text)
        # an array's length is known without the record of what each argument's type says
        text = re.sub(r"search \(long, c\.(?:before\.)*well-formed[.\d]*\)", "search (rules, long)", text)
        # an argument by its name
        text = re.sub(r"(?<=[\w])\.t(\d+)(?![\w-])", lambda m: "." + self.params[int(m.group(1)) - 1] if int(m.group(1)) <= len(self.params) else m.group(0), text)
        # a name for an earlier place is the place itself now
        while True:
            m = re.search(r"let ([A-Za-z_]\w*) = c in\s*", text)
            if not m:
                return text
            rest = re.sub(r"(?<![\w◌'.-])" + m.group(1) + r"(?![\w'-])", "c", text[m.end() :])
            text = text[: m.start()] + rest


def declarations(text):
    """(head lines, [(name, type, text)]) of a file."""
    lines = text.split("\n")
    head, decls, i = [], [], 0
    while i < len(lines) and (lines[i].startswith(("--", "use ")) or not lines[i].strip()):
        head.append(lines[i])
        i += 1
    block = []
    blocks = []
    for line in lines[i:]:
        if line and not line[0].isspace() and block and not block[-1].strip() and not re.match(r"\)|\}|\]", line):
            blocks.append(block)
            block = []
        block.append(line)
    if block:
        blocks.append(block)
    return head, ["\n".join(b).rstrip() for b in blocks]


def turn(path, entry, clauses, function, crate):
    text = path.read_text()
    turner = Turner(entry, clauses, function)
    head, blocks = declarations(text)
    comments = [h for h in head if h.startswith("--")]
    uses = [h for h in head if h.startswith("use ") and not re.search(r"\.Statement\.\{|\.Tie( |$|\.)", h)]
    needs = {flat(a): (b, entry["asked_at"][i][0]) for i, (a, b) in enumerate(entry["needs"])}
    module = f"Rattle.{crate}.proofs." + ".".join(path.parent.relative_to(path.parents[len(path.parts) - path.parts.index("proofs") - 2]).parts)
    invariants, answers, faults = [], [], []
    loops = {flat(a): (b, names, entry["changed"][i]) for i, ((a, b), names) in enumerate(entry["loops"])}
    for block in blocks:
        m = re.match(r"((?:--[^\n]*\n)*)(?:abbrev )?(?:pub )?(\S+) : tie\.(\S+)([^\n]*)\n((?:unfolding[^\n]*\n)?)", block)
        if not m:
            if re.match(r"(?:--[^\n]*\n)*pub [\w'-]+[-_]spec : ", block):
                continue
            answers.append((None, block))
            continue
        notes, name, kind, given, unfolding = m.groups()
        rest = block[m.end() :]
        k = re.match(r"(?:invariant|decreases)-(.+)$", kind)
        if k:
            loop = loops.get(flat(k.group(1)))
            if not loop:
                faults.append(f"no loop {kind}")
                continue
            new, live, changed = loop
            eq = re.match(re.escape(name) + r"((?: [^\s=]+)*) =", rest)
            if not eq:
                faults.append(f"no form {kind}")
                continue
            params = eq.group(1).split()
            wanted = [(v, f"l.initial.{v}" if c else f"l.{v}") for v, c in zip(live, changed)] + [(v, f"l.{v}") for v, c in zip(live, changed) if c]
            if len(params) != len(wanted):
                faults.append(f"{kind}: {len(params)} parameters, {len(wanted)} wanted: {params} {wanted}")
                continue
            to = {p: w for p, (_, w) in zip(params, wanted) if p != "_"}
            body = rest[eq.end() :]
            body = re.sub(r"(?<![\w'◌.-])[A-Za-z_][\w'₀-₉]*(?:-[\w'₀-₉]+)*(?! = )", lambda t: to.get(t.group(0), t.group(0)), body)
            label = kind.split("-")[0] + "-" + new
            invariants.append(f"{notes}abbrev pub {label} : goal.{label}\n{unfolding}{label} l ={body}")
            continue
        k = re.match(r"Need-(?:overflow[-_])?(.+)$", kind)
        need = needs.get(flat(k.group(1))) if k else None
        if not need:
            need = needs.get(flat(name))
        if not need:
            if re.search(r"= search rules$", rest.strip()):
                continue
            faults.append(f"no goal {name} : {kind}")
            answers.append((None, block))
            continue
        new, place = need
        eq = re.match(re.escape(name) + r"((?: [^\s=]+)*) =", rest)
        if not eq:
            faults.append(f"no form {name}")
            continue
        body = turner.body(rest[eq.end() :], place)
        if body.strip() in ("search rules", "tt", "refl"):
            continue
        args = [a for a in eq.group(1).split() if a != "κs"]
        own = clauses.get(function, ([], []))[1]
        if new.startswith("returns") and len(own) > 1:
            lets = re.match(r"((?:\s*let .*? in(?=\n|\s))*)(.*)$", body, re.S)
            cut = body.rfind(" in\n")
            front, last = (body[: cut + 4], body[cut + 4 :]) if cut >= 0 else ("", body)
            parts = split_clauses(last, len(own))
            if parts:
                body = front + " record { " + "; ".join(f"{n} = {p}" for n, p in zip(own, parts)) + " }"
            else:
                faults.append(f"{new}: {len(own)} clauses")
        answers.append((new, f"{notes}pub {new} : goal.{new}\n{unfolding}{new} {' '.join(args)} ={body}"))
    folder = path.parent

    def uses_in(text):
        out = []
        for u in uses:
            mm = re.match(r"use (.*)\.\{(.*)\}$", u)
            if mm:
                items = [i.strip() for i in mm.group(2).split(",")]
                keep = []
                for item in items:
                    bare = item.split(" as ")[-1]
                    core = bare.strip("◌") if "◌" in bare else bare
                    parts = [p for p in bare.split("◌") if p]
                    if any(p in text for p in parts):
                        keep.append(item)
                if keep:
                    out.append(f"use {mm.group(1)}.{{{', '.join(keep)}}}")
            else:
                last = u.split(" as ")[-1].split(".")[-1].strip()
                if last in text:
                    out.append(u)
        return out

    plain = "\n\n".join(b for _, b in answers)
    if invariants:
        body = "\n\n".join(invariants)
        (folder / "Invariants.antt").write_text("\n".join([*comments, *uses_in(body), f"use {module}.Given as goal", "", body, ""]))
        comments = []
    if any(n for n, _ in answers):
        goals = [f"use {module}.Goals as goal"]
        (folder / "Answers.antt").write_text("\n".join([*comments, *uses_in(plain), *goals, "", plain, ""]))
    path.unlink()
    return faults


def main():
    names = json.load(open(sys.argv[1]))
    crate = Path(sys.argv[2]).resolve()
    only = set(sys.argv[3:])
    root = crate.parent.parent
    clauses = clauses_of(root)
    for path in sorted((crate / "proofs").rglob("Proof.antt")):
        function = ".".join(path.parent.relative_to(crate / "proofs").parts)
        if only and function not in only:
            continue
        entry = names.get(f"Rattle-{crate.name}-proofs.{function}.Lts")
        text = path.read_text()
        if not entry or "as tie" not in text:
            print(f"left: {crate.name} {function}: {'no entry' if not entry else 'by hand'}")
            continue
        for fault in turn(path, entry, clauses, "::".join([crate.name, *function.split(".")]), crate.name):
            print(f"look: {crate.name} {function}: {fault}")


main()
