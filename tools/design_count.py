#!/usr/bin/env python3
"""Counts what docs/DESIGN-PASS.md counts: for each of its points, the places in crates/*/src (point 8: in crates/*/proofs).

    tools/design_count.py            a line for each count
    tools/design_count.py POINT      the places of one count, as FILE:LINE: what
"""
import glob, os, re, sys
from collections import defaultdict

os.chdir(os.path.join(os.path.dirname(os.path.abspath(__file__)), ".."))
PRIMITIVE = r"\b(u8|u16|u32|u64|u128|usize|i8|i16|i32|i64|isize|bool)\b"


def sources():
    for path in sorted(glob.glob("crates/*/src/*.rt")):
        text = open(path).read()
        # comments keep their lines, so that a place has its number
        yield path, re.sub(r"//[^\n]*", "", text)


def line_of(text, at):
    return text.count("\n", 0, at) + 1


def enums():
    for path, text in sources():
        for m in re.finditer(r"^(?:pub )?enum (\w+)[^{]*\{(.*?)^\}", text, re.S | re.M):
            variants = re.findall(r"^    (\w+)(\(.*?\))?,", m.group(2), re.M)
            yield f"{path}:{line_of(text, m.start())}", m.group(1), variants


def functions():
    for path, text in sources():
        for m in re.finditer(r"^ *(?:pub )?(?:unsafe )?(?:extern \"C\" )?fn (\w+)(?:<[^(]*>)?\(", text, re.M):
            at, depth = m.end(), 1
            while depth:
                depth += {"(": 1, ")": -1}.get(text[at], 0)
                at += 1
            params = text[m.end():at - 1]
            # the body is the block that starts a line; a clause stands in braces of its own
            body = re.search(r"\{", text[at:])
            first = at
            while True:
                word = re.match(r"[^{]*", text[first:]).group(0)
                brace = first + len(word)
                depth, end = 0, brace
                while True:
                    depth += {"{": 1, "}": -1}.get(text[end], 0)
                    end += 1
                    if depth == 0:
                        break
                if re.search(r"\b(requires|ensures)\b(\s+\w+)?\s*$", word):
                    first = end
                    continue
                break
            yield f"{path}:{line_of(text, m.start())}", m.group(1), params, text[at:brace], text[brace:end]


def shaped():
    "1a: enums of the shape of Option or Result"
    for at, name, variants in enums():
        none = [v for v, payload in variants if not payload or v in ("Refused", "Halted")]
        some = [v for v, payload in variants if payload and v not in ("Refused", "Halted")]
        refused = any(v in ("Refused", "Halted") for v, _ in variants)
        two = len(variants) == 2 and all(p for _, p in variants) and {v for v, _ in variants} & {"Absent", "Missing"}
        if refused or (none and some and len(variants) == 2) or two or (name.endswith("Answer") and none):
            yield at, name + " " + " | ".join(v + p for v, p in variants)


def numbered():
    "1b: refusals and kinds that are numbers"
    for path, text in sources():
        for m in re.finditer(r"^ +(Refused|Halted)\(u8\)|\b(why|refusal): u8|: \(u8, usize\)", text, re.M):
            yield f"{path}:{line_of(text, m.start())}", m.group(0).strip()
        for m in re.finditer(r"^pub const [A-Z]+: u8 = \d+;", text, re.M):
            yield f"{path}:{line_of(text, m.start())}", m.group(0)


def flagged():
    "1c: a flag with a value beside it, in a struct"
    for path, text in sources():
        for m in re.finditer(r"^(?:pub )?struct (\w+)[^{;]*\{(.*?)^\}", text, re.S | re.M):
            flags = re.findall(r"(\w+): bool", m.group(2))
            if flags:
                yield f"{path}:{line_of(text, m.start())}", m.group(1) + " " + ", ".join(flags)


def twins():
    "2: functions that are the same but for types, numbers and names"
    seen = defaultdict(list)
    for at, name, params, contract, body in functions():
        text = body
        if len([l for l in text.split("\n") if l.strip()]) < 6:
            continue
        text = re.sub(PRIMITIVE, "T", text)
        text = re.sub(r"\b\d[\d_]*\b", "N", text)
        names = {}
        keep = {"if", "else", "let", "mut", "while", "for", "in", "match", "return", "true", "false", "T", "N", "as", "loop"}
        text = re.sub(r"\b[A-Za-z_]\w*\b", lambda m: m.group(0) if m.group(0) in keep else names.setdefault(m.group(0), f"x{len(names)}"), text)
        seen[re.sub(r"\s+", " ", text)].append((at, name))
    for group in seen.values():
        if len(group) > 1:
            for at, name in group[1:]:
                yield at, f"{name} as {group[0][1]} ({group[0][0]})"


def counted():
    "3: loops that count by hand"
    for path, text in sources():
        for m in re.finditer(r"^\s*(while\b[^{]*|loop\b *)\{", text, re.M):
            yield f"{path}:{line_of(text, m.start(1))}", m.group(1).strip()


BY_HAND = r"fn (wide|small|copy_\w+|zero\w*|same\w*|equal\w*|eq|less\w*|before\w*|larger|hex\w*|digit\w*|decimal\w*|put_digits\w*|op_of|\w+_number|is_\w+_kind|both|code)\("


def by_hand():
    "4: equality, order, copying, conversion and printing by hand"
    for path, text in sources():
        for m in re.finditer(BY_HAND, text):
            yield f"{path}:{line_of(text, m.start())}", m.group(0)[:-1]
    for at, name, variants in enums():
        if [v for v, _ in variants] == ["Less", "Equal", "Greater"]:
            yield at, "enum " + name


def apart(params):
    """The parameters; a comma within brackets parts none."""
    out, depth, at = [], 0, 0
    for i, c in enumerate(params + ","):
        depth += (c in "(<[") - (c in ")>]")
        if c == "," and depth == 0:
            one = re.sub(r"\s+", " ", params[at:i].strip())
            if one:
                out.append(one)
            at = i + 1
    return out


def together():
    "5a: functions with parameters that travel together in three or more functions (runs of three and more)"
    runs = defaultdict(set)
    where = {}
    for at, name, params, _, _ in functions():
        ps = apart(params)
        for i in range(len(ps) - 2):
            runs[tuple(ps[i:i + 3])].add(at)
        where[at] = name
    hit = set()
    for run, ats in runs.items():
        if len(ats) >= 3:
            hit |= ats
    for at in sorted(hit):
        yield at, where[at]


def repeated():
    "5b: facts that stand in the contracts of three or more functions of one crate"
    facts = defaultdict(set)
    for at, name, _, contract, _ in functions():
        crate = at.split("/")[1]
        for clause in re.findall(r"requires\s+\w*\s*\{(.*?)\}\s*(?=ensures|requires|$)", contract, re.S):
            for fact in re.split(r"\s×\s", clause):
                fact = re.sub(r"\s+", " ", fact).strip(" ()")
                if len(fact) > 12:
                    facts[crate, fact].add(at)
    for (crate, fact), ats in sorted(facts.items()):
        if len(ats) >= 3:
            yield sorted(ats)[0], f"{fact} ({len(ats)})"


def lengths():
    "6: a slice or array parameter with its length in use beside it"
    for at, name, params, _, _ in functions():
        ps = [re.sub(r"\s+", " ", p.strip()) for p in params.split(",")]
        if any("[" in p for p in ps) and any(re.fullmatch(r"(n|len|count|levels|used|most): (usize|u16|u32)", p) for p in ps):
            yield at, name


def switches():
    "7: a switch on which step to run, or a table of functions"
    for path, text in sources():
        for m in re.finditer(r"\bmatch (op|step|kind|form|phase)\b|\[fn\(", text):
            yield f"{path}:{line_of(text, m.start())}", m.group(0)


def found_alone():
    "8: answers of proof files that say no more than search"
    for path in sorted(glob.glob("crates/*/proofs/**/*.antt", recursive=True)):
        for n, line in enumerate(open(path), 1):
            if re.search(r"= search rules\s*$", line):
                yield f"{path}:{n}", line.split(" ")[0]


COUNTS = {"1a": shaped, "1b": numbered, "1c": flagged, "2": twins, "3": counted, "4": by_hand, "5a": together, "5b": repeated,
          "6": lengths, "7": switches, "8": found_alone}

if len(sys.argv) > 1:
    for at, what in COUNTS[sys.argv[1]]():
        print(f"{at}: {what}")
else:
    for point, count in COUNTS.items():
        print(f"{len(list(count())):5}  {count.__doc__}")
