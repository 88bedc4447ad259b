#!/usr/bin/env python3
"""forms.py [--places] [CRATES]: counts the places where the code has an older form, for docs/DESIGN-PASS.md.

CRATES is a folder of crates, `crates` if left out. With --places each place is printed too. Comments do not count, nor what rt makes in out/.
"""
import collections
import os
import re
import sys

args = [a for a in sys.argv[1:] if a != "--places"]
show = "--places" in sys.argv
root = args[0] if args else "crates"


def source(path):
    text = open(path, encoding="utf8").read()
    return re.sub(r"//[^\n]*", "", text)


def close(text, at, pair="()"):
    depth = 0
    for i in range(at, len(text)):
        depth += (text[i] == pair[0]) - (text[i] == pair[1])
        if depth == 0:
            return i
    return len(text)


Function = collections.namedtuple("Function", "where name outer parameters result clauses body")
functions, structs, variants, texts = [], [], [], {}
for folder, folders, names in sorted(os.walk(root)):
    folders[:] = sorted(f for f in folders if f not in ("out", "specs", "proofs", "must-fail", "data"))
    for name in sorted(names):
        if not name.endswith(".rt"):
            continue
        path = os.path.join(folder, name)
        text = source(path)
        short = os.path.relpath(path, root)
        texts[short] = text
        for m in re.finditer(r"(pub(?:\([a-z]+\))? )?(?:const )?(extern \"C\" )?fn (\w+)(<[^(]*>)?\(", text):
            end = close(text, m.end() - 1)
            inside = text[m.end() : end]
            depth, parts, part = 0, [], ""
            for ch in inside:
                depth += (ch in "([<{") - (ch in ")]>}")
                if ch == "," and depth == 0:
                    parts.append(part.strip())
                    part = ""
                else:
                    part += ch
            parts = [p for p in parts + [part.strip()] if p]
            rest = text[end + 1 :]
            head = re.match(r"\s*(->\s*([^{;]*?))?\s*((requires|ensures)\b|\{|;)", rest, re.S)
            result = (head.group(2) or "").strip() if head else ""
            at = head.start(3) if head else 0
            clauses = []
            while rest[at:].startswith(("requires", "ensures")):
                brace = rest.index("{", at)
                stop = close(rest, brace, "{}")
                clauses.append((rest[at:brace].split(), " ".join(rest[brace + 1 : stop].split())))
                at = stop + 1 + (len(rest[stop + 1 :]) - len(rest[stop + 1 :].lstrip()))
            body = rest[at : close(rest, at, "{}") + 1] if rest[at : at + 1] == "{" else ""
            line = text.count("\n", 0, m.start()) + 1
            functions.append(Function(f"{short}:{line}", m.group(3), m.group(2), parts, result, clauses, body))
        for m in re.finditer(r"struct (\w+)(?:<[^{;(]*>)? \{([^}]*)\}", text):
            structs.append((f"{short}:{text.count(chr(10), 0, m.start()) + 1}", m.group(1), re.findall(r"(\w+): ([^,\n]+)", m.group(2))))
        for m in re.finditer(r"\b(Refused|None|Err)\((u32|usize)\),", text):
            variants.append(f"{short}:{text.count(chr(10), 0, m.start()) + 1}")


def matches(pattern, keep=lambda m: True):
    for short, text in texts.items():
        for m in re.finditer(pattern, text):
            if keep(m):
                yield f"{short}:{text.count(chr(10), 0, m.start()) + 1} {' '.join(m.group(0).split())[:70]}"


rows = []


def row(point, what, places):
    places = list(places)
    rows.append((point, what, places))


row(1, "functions that answer a number for a cause, or 0 and 1", (f"{f.where} {f.name}" for f in functions if f.result == "u32" and not f.outer and f.name != "number"))
row(1, "enum variants that hold a refusal's number", variants)
row(1, "structs with a number or a flag beside values", (f"{w} {n}" for w, n, fs in structs if len(fs) > 1 and any(f in ("number", "cause", "settled", "fine", "sound", "on") and t.strip() in ("u32", "bool") for f, t in fs)))
row(1, "sentinels: a constant for none, or a test whether an index is the length", list(matches(r"\bNONE\b(?=[,;.)\s])")) + list(matches(r"if (j < checks|checks <= j|v < bits|first < text\.len\(\)) \{")))


def shape(f):
    tokens = re.findall(r"\w+|[^\w\s]", f.body)
    names = {}
    return tuple("#" if t[0].isdigit() else names.setdefault(t, f"n{len(names)}") if re.match(r"\w", t) and t not in ("if", "else", "while", "for", "in", "let", "mut", "return", "match") else t for t in tokens)


shapes = collections.defaultdict(list)
for f in functions:
    s = shape(f)
    if len(s) >= 9:
        shapes[s].append(f)
row(2, "functions whose body has another's shape (names and numbers blanked, nine tokens or more)", (f"{f.where} {f.name}" for fs in shapes.values() if len(fs) > 1 for f in fs))
row(3, "loops that count by hand: `while`", matches(r"\bwhile\b[^{]*\{"))
row(3, "walks that step over a record by hand", matches(r"records::after_check\((rest|record)\)"))
row(4, "conversions by own functions: `slices::byte`, `slices::index`", matches(r"slices::(byte|index)\("))
row(4, "conversions by `as`", matches(r" as (usize|u64|u32|u16|u8|i64|i32|i16)\b"))
where = collections.defaultdict(list)
for f in functions:
    for head, clause in f.clauses:
        if head[0] == "requires":
            where[clause].append(f)
row(5, "`requires` that stand word for word in three functions or more", (f"{f.where} {f.name}: {c[:60]}" for c, fs in where.items() if len(fs) > 2 for f in fs))
row(5, "functions with eight parameters or more", (f"{f.where} {f.name} {len(f.parameters)}" for f in functions if len(f.parameters) > 7))
bundles = [("limits", "inverses"), ("limits32", "inverses32"), ("bounds", "factors"), ("running", "ks"), ("multipliers", "slacks"), ("triples", "counts"), ("sums", "values"), ("sums", "values", "rows")]


def named(f):
    return {p.split(":")[0].strip().removeprefix("mut ") for p in f.parameters}


row(6, "a lent list to be written and the place beside it", (f"{f.where} {f.name}" for f in functions if any(re.search(r": &mut \[", p) for p in f.parameters) and named(f) & {"at", "next"}))
row(6, "parallel lists as parameters", (f"{f.where} {f.name}" for f in functions if not f.outer and any(set(b) <= named(f) for b in bundles)))
row(7, "switches on which list or step is meant", matches(r"match (which|part|example) \{"))
row(8, "clause labels made by scripts", (f"{f.where} {f.name}: {h[1]}" for f in functions for h, _ in f.clauses if len(h) > 1 and re.fullmatch(r"by_index(_\d)?|fact(_\d)?|\w+_[2-9]|after_after|last_after|code_value|s_value|\w+_lt_most_triples|\w+_bound|\w+_in_bounds|\w+_value|\w+_len", h[1])))

for point, what, places in rows:
    print(f"{point}  {len(places):4}  {what}")
    if show:
        for place in places:
            print(f"         {place}")
