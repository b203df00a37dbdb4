#!/usr/bin/env python3
"""Brings the repository's own names to one spelling, once, after the toolchain's own script: what is in specs/ and proofs/ is in snake
case, folders of modules are in camel case, and names from src/ keep theirs.

usage: python3 tools/respell.py        at the top of the repository, on files as the toolchain's script left them

It goes by text. A name that begins with a small letter and has a capital or a dash in it is respelled: in .antt files each such name, but
for those of the library (KEPT) and those that the toolchain makes for a function's proof; in .rt files, must-fail edits and comments
those that a file of specs/ or proofs/ declares. It prints each name that two names fell together in, and each file in which a name is
now spelled as another that stood there.
"""
import collections
import os
import re
import subprocess
import sys

# names of the library, which keep their dash
KEPT = set(
    """
add-mul-mod_self_left add-one add-zero append-nil bool-copy div-add-mod div-lt_iff_lt-mul drop-append-add drop-cons drop-drop
drop-length drop-nil drop-set-add drop-set-lt drop_of_length-le eq-eqb eq-or-lt_of_le eqb-false eqb-true get_or-append
get_or-append-add get_or-append_seam get_or-drop get_or-eq_default get_or-map get_or-replicate get_or-set_other get_or-set_same
get_or-take le-leb le-ltb le_of_suc-le-suc leb-false leb-true length-append length-drop length-map length-replicate length-set
length-take length-take-le lt-leb lt-ltb lt_of_not-le ltb-false ltb-true min-le_left min-le_right mod-eq_of_lt mod-lt mod-pow-add
mul-add-mod_self_right mul-le-mul_left mul-le-mul_right mul-mod_left not-false not-le_of_lt not-suc-le-zero not-true paste-suc
pow-add pow-le-pow_right pow-suc replicate-append-replicate set-append_left set-get_or sets-eq shl-shr sub-add_cancel sub-one
sub-zero suc-add suc-mul take-add take-append-drop take-append_seam take-length take-nil take-set-le take-set-lt take-suc
take-suc-set take-take to_z-of_z zero-add zero-lt-suc zero-mul
""".split()
)
MODULES = {"laws": "Laws", "round_trip": "RoundTrip"}
# names of one file that a respelled definition would fall together with there
FALLEN = {
    "ops_spec/specs/OpsListsLaws.antt": {"past_all": "past_all_lem"},
    "node/specs/ReadLaws.antt": {"search_is": "search_is_lem"},
    "ops_stands/specs/OpsStandsLaws.antt": {"at_first": "at_first_lem", "at_key": "at_key_lem"},
    "packing/specs/laws/InsertLaws.antt": {"with_value": "with_value_lem"},
    "baxhiso_seats/proofs/DispatchResults.antt": {"by_answer": "by_answer_lem"},
    "turns/specs/TurnsLaws.antt": {"by_turn": "by_turn_lem", "by_answer": "by_answer_lem"},
    "baxhiso_seats_calls/specs/SeatCCallsLaws.antt": {"by_turn": "by_turn_lem"},
    "node_fit/proofs/any_fit/Proof.antt": {"node_at": "node_there"},
    "convert_size/specs/SingleLaws.antt": {"has_one": "has_one_lem"},
    "stream_upto/proofs/turn/Proof.antt": {"search_is": "search_is_lem"},
    "carry_levels/proofs/next_level/Proof.antt": {"search_is": "search_is_lem"},
    "stream_seek/proofs/enter/Proof.antt": {"search_is": "search_is_lem"},
}
TOKEN = re.compile(r"[^\W\d][\w'′]*(?:-[\w'′]+)*")
MARKS = r"^\s*(?:(?:pattern|unfoldable|abbrev|axiom|pub|\|)\s+)*"
DECLARED = re.compile(MARKS + r"([^\s:(){}|.]+(?:\s+[^\s:(){}|.]+)*)(?:\s*\{[^}]*\})?\s*:(?:\s|$)")


def is_odd(name):
    return not name[0].isupper() and bool(re.search(r"[a-z0-9][A-Z]|-|′", name))


def respelled(name):
    words = [re.sub(r"(?<=[a-z0-9'])([A-Z]+)", lambda m: "_" + m.group(1).lower(), w) for w in name.replace("′", "'").split("-")]
    return "_".join(words)


def files(*ends):
    for folder, dirs, names in os.walk("crates"):
        dirs[:] = sorted(d for d in dirs if d != "out")
        for name in sorted(names):
            if name.endswith(ends):
                yield os.path.join(folder, name)


def read(path):
    with open(path, encoding="utf-8") as f:
        return f.read()


def declared_in(text):
    found = set()
    for line in text.split("\n"):
        m = None if line.lstrip().startswith("--") else DECLARED.match(line)
        if m:
            found.update(m.group(1).split())
    return found


def is_walk(path):
    return bool(re.search(r"/proofs/[^/]+/[^/]+\.antt$", path))


def main():
    texts = {p: read(p) for p in files(".antt")}
    turned = dict(texts)
    for end, names in FALLEN.items():
        p = "crates/" + end
        for was, now in names.items():
            turned[p] = re.sub(rf"(?<![\w.'-]){was}(?![\w'-])", now, turned[p])
    ours = set()
    for p, t in texts.items():
        if not is_walk(p):
            ours |= {n for n in declared_in(t) if is_odd(n) and n not in KEPT}
    plain = set().union(*(declared_in(t) for p, t in texts.items() if not is_walk(p)))
    taken = plain | {respelled(n) for n in ours if "-" not in n}

    def new_name(n):
        # a lemma that would have its function's name
        return respelled(n) + ("_lem" if n in ours and "-" in n and respelled(n) in taken else "")

    together = collections.defaultdict(set)
    for name in ours:
        together[new_name(name)].add(name)
    for name, was in sorted(together.items()):
        if len(was) > 1:
            print(f"together: {name}: {' '.join(sorted(was))}")

    def turn_antt(path, text):
        walk = is_walk(path)
        # what answers a need of the toolchain's is named by the toolchain
        made = set(re.findall(r"^(?:abbrev )?(\S+) : (?:\{[^}]*\} → )?tie\.(?:Need|invariant|decreases)", text, re.M)) if walk else set()
        out = []
        code = set()
        for line in text.split("\n"):
            if not line.lstrip().startswith("--"):
                code.update(TOKEN.findall(line))
        was = set()
        for line in text.split("\n"):
            if not line.lstrip().startswith("--") and not line.startswith("use "):
                was.update(m.group(0) for m in TOKEN.finditer(line) if not is_odd(m.group(0)) and (not m.start() or line[m.start() - 1] != "."))
            else:
                m = re.match(r"use .*\.\{(.*)\}", line)
                if m:
                    was.update(w.split()[-1] for w in m.group(1).split(", "))
        for line in text.split("\n"):
            comment = line.lstrip().startswith("--")

            def one(m):
                n = m.group(0)
                if not is_odd(n) or n in KEPT or n in made:
                    return n
                if comment and not (n in ours and (n in code or "-" not in n)):
                    return n
                if walk and n not in ours and m.start() and line[m.start() - 1] == ".":
                    return n
                if not comment and new_name(n) in was:
                    print(f"captured: {path}: {n}")
                return new_name(n)

            out.append(TOKEN.sub(one, line))
        return "\n".join(out)

    def turn_ours(path, text, keep_dash=False):
        def one(m):
            n = m.group(0)
            return new_name(n) if n in ours else n

        parts = re.split(r'("(?:[^"\\\n]|\\.)*")', text)
        return "".join(s if i % 2 else TOKEN.sub(one, s) for i, s in enumerate(parts))

    def turn_modules(text):
        for old, new in MODULES.items():
            text = re.sub(rf"(\.specs\.){old}(?=[.\s;])", rf"\g<1>{new}", text)
            text = re.sub(rf"^(pub mod |mod ){old}$", rf"\g<1>{new}", text, flags=re.M)
        return text

    for p, t in texts.items():
        write(p, t, turn_modules(turn_antt(p, turned[p])))
    for p in files(".rt"):
        t = read(p)
        new = turn_modules(turn_ours(p, t))
        for n in set(TOKEN.findall(new)) - set(TOKEN.findall(t)):
            if re.search(rf"\b{re.escape(n)}\s*:", t):
                print(f"captured: {p}: {n}")
        write(p, t, new)
    for p in files(".edit"):
        t = read(p)
        head = re.sub(r"^(file: specs/)(laws|round_trip)(?=[/.])", lambda m: m.group(1) + MODULES[m.group(2)], t, flags=re.M)
        write(p, t, turn_modules(turn_ours(p, head)))
    for crate in sorted(os.listdir("crates")):
        for old, new in MODULES.items():
            for end in ("", ".antt"):
                if os.path.exists(f"crates/{crate}/specs/{old}{end}"):
                    subprocess.run(["git", "mv", f"crates/{crate}/specs/{old}{end}", f"crates/{crate}/specs/{new}{end}"], check=True)


def write(path, old, new):
    if new != old:
        with open(path, "w", encoding="utf-8") as f:
            f.write(new)


if __name__ == "__main__":
    sys.exit(main())
