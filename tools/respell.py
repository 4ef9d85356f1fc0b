#!/usr/bin/env python3
"""Brings this repository's own definitions and lemmas to the spelling of today's Rattle: words in snake case.

usage: python3 tools/respell.py         at the top of the repository, once, right after port.py

A name that an .antt file of crates/ declares with a type, and that has a dash or a capital inside it, gets underscores
(`onLine` and `on-line` are `on_line`). Types and modules, names of src/, text in quotes and the must-fail edits keep theirs.
It prints each name with what it became, and stops before it writes where two names would fall together.
"""

import os
import re
import sys

WORD = re.compile(r"[^\s(){}\[\],;:.λ→×∙⌜⌝\"`|=←]+")
SIGNED = re.compile(r"^\s*(?:(?:abbrev|unfoldable|pub)\s+)*((?:[^\s(){}\[\],;:.λ→×∙=|←]+\s+)+)(?:\([^:]*:.*\)\s*)?:\s")
KEPT = {"◌when◌"}
# A dash in an operator or in a name of the library.
OPERATOR = re.compile(r"[◌≡≤<>+*/%^&]")
# Lemmas that would fall together with the definition that they are about, and three more of whom the same is true as port.py left them.
LEMMAS = (
    "answer-number first-bad first-holder fresh-net ids-differ is-node lap-steps lap-takers loaded-row loaded-rows naks-dropped node-of packet-at plain-fit "
    "receive-cancelled regs-at step-naks stores-it takes-it transmit-cancelled well-formed went-out"
).split()
APART = {n: n.replace("-", "_") + "_lem" for n in LEMMAS} | {n: n + "_lem" for n in ("each_row", "row_done", "write_bytes")} | {"withId": "with_own_id", "Given-up": "GivenUp"}
# Here a name stands for the function of src/ that it is about, and falls together with nothing.
FUNCTIONS = re.compile(r"crates/promises/(specs/(Of|Promises)|proofs/Once/)")
# Names that Rattle makes.
MADE = re.compile(r"^(invariant|decreases|returns|loop)\b")


def files():
    for folder, dirs, names in os.walk("crates"):
        dirs[:] = sorted(d for d in dirs if d not in ("out", "must-fail"))
        for name in sorted(names):
            if name.endswith((".antt", ".rt")):
                yield os.path.join(folder, name)


def snake(name):
    parts = ["get_or" if p == "getD" else p for p in name.split("-")]
    if all(p.isupper() for p in parts):
        return "_".join(parts)
    # A type keeps its capital within a name.
    return "_".join(p if re.fullmatch(r"[A-Z][a-z]\w*", p) else re.sub(r"(?<=[a-z])([A-Z]+)", r"_\1", p).lower() for p in parts)


def comment(path, line):
    at = line.find("--" if path.endswith(".antt") else "//")
    return (line, "") if at < 0 else (line[:at], line[at:])


def outer(line):
    """The names that a line of `use` brings from another place than this repository's crates."""
    m = re.match(r"\s*(?:ghost )?use (\S+)\.\{(.*)\}", line)
    return (m.group(1), [n.split(" as ")[0].strip() for n in m.group(2).split(",")]) if m else (None, [])


def main():
    crates = {l.split(":")[0].split()[0] for l in open("crates.txt") if l.strip() and not l.startswith("#")}
    own, theirs, tokens, needs = {}, set(), set(), set()
    for path in files():
        for line in open(path, encoding="utf-8"):
            code, _ = comment(path, line)
            tokens.update(WORD.findall(code))
            module, names = outer(code)
            if module:
                m = re.match(r"Rattle\.(\w+)\.(specs|proofs)\.", module + ".")
                if not (m and m.group(1) in crates and "TheVariants" not in module):
                    theirs.update(names)
                continue
            if not path.endswith(".antt"):
                continue
            m = SIGNED.match(code)
            if m and not re.match(r"\s*(let|in|where|module|use|data|record)\b", code):
                for name in m.group(1).split():
                    if re.search(r": tie\.", code) or MADE.search(name):
                        needs.add(name)
                    else:
                        own.setdefault(name, set()).add(path)
    change = {}
    for name in own:
        if name in KEPT or OPERATOR.search(name) or name.startswith("-") or name in needs and all(p.endswith("Proof.antt") for p in own[name]):
            continue
        if "-" in name or re.match(r"^[a-z]\w*[A-Z]", name) or name in APART:
            change[name] = APART.get(name, snake(name))
    for name in sorted(set(change) & theirs):
        print(f"left: {name} is a name of the library too")
        del change[name]
    bad, back = 0, {}
    for name, new in sorted(change.items()):
        if new == name:
            del change[name]
            continue
        alone = {n for n in (back.get(new), new) if n in own and n not in APART and not all(FUNCTIONS.match(p) for p in own[n])}
        taken = alone and not all(FUNCTIONS.match(p) for p in own[name])
        if taken:
            print(f"falls together: {name} -> {new} ({back.get(new, 'in use')}) {sorted(own[name])[:2]}")
            bad += 1
        back[new] = name
    if bad and "--anyway" not in sys.argv:
        return 1

    def word(path, code, m):
        name = m.group(0)
        if name not in change:
            return name
        # A field, or the name of a function, falls together with nothing.
        field = m.start() > 0 and code[m.start() - 1] == "."
        return (name if name in tokens and "-" not in name else snake(name)) if name in APART and (field or FUNCTIONS.match(path)) else change[name]

    for path in files():
        text = open(path, encoding="utf-8").read()
        out = []
        for line in text.split("\n"):
            code, note = comment(path, line)
            if path.endswith(".rt"):
                code = "".join(p if i % 2 else WORD.sub(lambda m, p=p: word(path, p, m), p) for i, p in enumerate(re.split(r'("[^"]*")', code)))
            else:
                code = WORD.sub(lambda m, c=code: word(path, c, m), code)
            note = WORD.sub(lambda m: change.get(m.group(0), m.group(0)) if "-" not in m.group(0) else m.group(0), note)
            out.append(code + note)
        new = "\n".join(out)
        if new != text:
            open(path, "w", encoding="utf-8").write(new)
    for name in sorted(change):
        print(f"{name} {change[name]}")
    return 0


if __name__ == "__main__":
    raise SystemExit(main())
