#!/usr/bin/env python3
"""Lists the places in crates/*/src whose form is older than today's Rattle, point by point of docs/DESIGN-PASS.md.

    python3 tools/forms.py [CHECKOUT] [POINT..]      the counts, and with a point its places

Each place is a line FILE:LINE: TEXT. The text of a test is a regular expression, so that a reader can run it by grep -P."""
import collections
import glob
import re
import sys

top = sys.argv[1] if len(sys.argv) > 1 and not sys.argv[1].isdigit() else "."
wanted = [it for it in sys.argv[1:] if it.isdigit()]
files = sorted(it for it in glob.glob(f"{top}/crates/*/src/*.rt"))
lines = [(f[len(top) + 1 :], k, line) for f in files for k, line in enumerate(open(f), 1)]


def found(*tests):
    return [(f, k, t.strip()) for f, k, t in lines if not t.lstrip().startswith("//") and any(re.search(it, t) for it in tests)]


def bodies():
    """The functions: file, line, name, the text of the head, the text of the body."""
    for f in files:
        text = open(f).read()
        for head in re.finditer(r"(?m)^( *)(?:pub(?:\([a-z]+\))? )?fn (\w+)", text):
            indent = head[1]
            opened = re.compile(rf"(?m)(?:^{indent}\{{|\{{)$").search(text, head.end())
            shut = re.compile(rf"(?m)^{indent}\}}$").search(text, opened.end())
            line = text.count("\n", 0, head.start()) + 1
            yield f[len(top) + 1 :], line, head[2], text[head.start() : opened.start()], text[opened.end() : shut.start()]


def twins():
    """Functions of one file whose code differs in names, types and numbers alone."""
    groups = collections.defaultdict(list)
    for f, k, name, head, body in bodies():
        code = re.sub(r"//[^\n]*", "", body)
        words = re.findall(r"\w+|[^\w\s]", code)
        keep = {"if", "else", "match", "while", "for", "in", "let", "mut", "return", "self"}
        shape = tuple(w if not re.match(r"\w", w) or w in keep else "x" for w in words)
        if len(shape) >= 24:
            groups[(f, shape)].append((f, k, f"fn {name}"))
    return [it for group in groups.values() if len(group) > 1 for it in group]


def repeated(kind, least):
    """Clauses, or runs of three parameters, that stand in `least` functions of one crate or more."""
    places = collections.defaultdict(list)
    for f, k, name, head, body in bodies():
        crate = f.split("/")[1]
        if kind == "clause":
            facts = {re.sub(r"\.(now|old)\b", "", it.strip()) for it in re.findall(r"requires(?: \w+)? \{ (.*?) \}$", head, re.M)}
        else:
            said = re.search(r"\((.*?)\)(?: ->|\s*$|\n)", head, re.S)
            words = [it.strip() for it in (said[1] if said else "").replace("\n", " ").split(",") if ":" in it]
            facts = {tuple(words[i : i + 3]) for i in range(len(words) - 2)}
        for fact in facts:
            places[(crate, fact)].append((f, k, f"fn {name}: {fact if kind == 'clause' else ', '.join(fact)}"))
    return [it for group in places.values() if len(group) >= least for it in group]


SIZES = "RECEIVE|LONG|REGISTER_BYTES|ROW_BYTES|RECORD|HEADER|ROWS|NAK_LIMIT|MOST|NET|LIST|LOW2|SETUP|TA|TTA|LINE|LOW|ROOM(?=: usize)"
POINTS = {
    1: lambda: found(
        r"^\s+(Illegal|Refused\(\w+\)|Error\(\w+\)),$",
        r"^\s+(pub(\(crate\))? )?(ok|valued|over|number|bad): (bool|u8|usize),$",
        # a number for a kind; the others of this form are sizes, limits and bits
        rf"^(pub(\(crate\))? )?const (?!({SIZES})\b)\w+: (u8|usize) = \d+;$",
        r"\bfn \w*(number|refuse|wide_value)\w*\(.*-> (u8|Number)$",
        r"\bfn (fresh|write|write_on|reset|timer|top_id|nibble)\(.*-> u8$",
        r"\bfn (node_of|record_of)\(.*-> usize$",
        r"\bfn (?!run\()\w+\(.*-> (Checked|Lapped|Walked|Reading|Interrupting|Number|Input|Told)$",
        r"\bfn step\(.*-> Answer$",
    ),
    # by their shape, and by name those that stand apart
    2: lambda: twins()
    + found(
        r"\bfn (choose\(|(either|transmitting|receiving|transmit_page|receive_page|id_at|flags_at)\b|(happen|carry)\(net: &mut \[u8\], n:)",
        r"\bstruct (Reading|Interrupting|Lapped)\b",
        r"\bfn (text|decimal)\((rt: &impl Print|err: Stderr), (s|n): ",
    ),
    # a count to u64::MAX stands for a loop that has no end
    3: lambda: found(r"^\s*while ", r"^\s*for [a-z]\w* in 0\.\.(?!u64::MAX)", r"\b\w+\[\d \* k\]"),
    4: lambda: found(r"^#\[derive\(Clone, Copy\)\]$", r"\[0\] == \w*MARK\[0\]", r"\bfn (same|wide|fill|shift|fill_zero|worded|valued|numbered|reading|checked|interrupting)\(", r"\{ 1 \} else \{ 0 \}", r"/ 256\) as u8"),
    5: lambda: repeated("clause", 3) + repeated("parameters", 3),
    6: lambda: found(r"^\s+(pub(\(crate\))? )?\w+: \[(?!\d)\w+; \w+\],$", r"^(pub )?const \w+: \[u8; \d{3}\]", r"out: &mut \[u8; ROOM\], n: usize"),
    7: lambda: found(r"^\s+(let tens|match (tens|event|number|register|phase|self\.sub_address\(\)|phase\(net\)))\b", r"^\s+(pub(\(crate\))? )?call: usize,$", r"\b(CHECK|DATA|FRESH|INTERRUPT|PEEK|POKE|READ|RESET|SHOW|STEP|SUM|WRITE) =>"),
    8: lambda: [(f[len(top) + 1 :], len(re.findall(r"(?m)^pub .* : goal\.", open(f).read())), "goals") for f in sorted(glob.glob(f"{top}/crates/*/proofs/**/Answers.antt", recursive=True))],
}

for point, places in POINTS.items():
    if wanted and str(point) not in wanted:
        continue
    its = list(dict.fromkeys(places()))
    print(f"point {point}: {len(its)} places")
    if wanted:
        for f, k, text in its:
            print(f"{f}:{k}: {text}")
