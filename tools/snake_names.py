#!/usr/bin/env python3
"""Brings this repository's own names to one spelling, once, after port.py.

usage: python3 tools/snake_names.py        at the top of the repository

Definitions, lemmas, fields, constructors, parameters and locals of specs/ and proofs/ go to snake case, facts and types
that began with a capital to camel case, and a prime to an apostrophe. Names of the kit (what a file imports from
Rattle.std), names that Rattle makes (goals, steps, ways) and functions of src/ keep their spelling.
It goes by whole words, in .antt and .rt files and in must-fail edits, and stops, writing nothing, where two names fall together.
"""
import glob
import os
import re
import sys

WORD = re.compile(r"[A-Za-z_][A-Za-z0-9_']*(?:-[A-Za-z0-9_'+*]+)*")
IMPORT = re.compile(r"^\s*(?:ghost )?(?:pub )?use (Rattle\.[\w.+'-]+)\.\{([^}]*)\}", re.M)


# where the rule alone would give two names one spelling
CHOSEN = {
    "Classes-decide": "ClassesAlwaysDecide",
    "Counts-tell": "CountsAlwaysTell",
    "recordAt": "nth_record",
    "transitionOf": "move_of",
    "twoBytes": "bytes_value",
}
# words that were already another word for the same definition
SAME = {"class-of", "number-of"}


def texts(pattern):
    return {f: open(f, encoding="utf-8").read() for f in sorted(glob.glob(pattern, recursive=True)) if "/out/" not in f}


def spelled(name):
    """The new spelling of a name."""
    if name in CHOSEN:
        return CHOSEN[name]
    name = name.replace("getD", "get_or").replace("sumBy", "sum_by").replace("putMid", "put_mid")
    if name[0].isupper():
        return "".join(part[0].upper() + part[1:] for part in name.split("-"))
    return re.sub(r"(?<=[a-z0-9])([A-Z])", lambda m: "_" + m.group(1).lower(), name.replace("-", "_"))


def is_odd(name):
    return "-" in name or (name[0].islower() and re.search(r"[a-z0-9][A-Z]", name) is not None)


def imported(text):
    """Words that a file takes from the kit, and those that it takes from this repository."""
    kit, own = set(), set()
    for path, items in IMPORT.findall(text):
        made = ".Goals" in path or ".Given" in path
        words = {w for item in items.split(",") for w in re.split(r"\s+as\s+", item.strip())}
        (kit if path.startswith("Rattle.std") or made else own).update(words)
        # a name of the kit under another word is that file's own word
        if path.startswith("Rattle.std"):
            own.update(item.strip().split(" as ")[1].strip() for item in items.split(",") if " as " in item)
    return kit, own


def words_of(text):
    for line in text.split("\n"):
        if line.lstrip().startswith(("--", "//", "use ", "pub use ")):
            continue
        yield from WORD.findall(line)


def bound(text):
    """Words that a proof of a function binds itself, by let or λ or in a where."""
    found = set()
    for m in re.finditer(r"\blet ([\w'-]+)\s*[:=]", text):
        found.add(m.group(1))
    for m in re.finditer(r"\blet \(([^)=]*)\)", text):
        found.update(WORD.findall(m.group(1)))
    for m in re.finditer(r"λ ([^.]*)\.", text):
        found.update(WORD.findall(m.group(1)))
    for m in re.finditer(r"^[ \t]+(?:pub )?([\w'-]+)[ \t]+:\s", text, re.M):
        found.add(m.group(1))
    for m in re.finditer(r"\(([\w' -]+) : ", text):
        found.update(WORD.findall(m.group(1)))
    return found


def main():
    lemmas = {**texts("crates/*/specs/*.antt"), **texts("crates/*/proofs/*.antt")}
    steps = {f: t for f, t in texts("crates/*/proofs/**/*.antt").items() if f not in lemmas}
    code = texts("crates/*/src/**/*.rt")
    edits = texts("crates/*/must-fail/*.edit")

    # every word of the lemma files that is not the kit's
    own, plain = set(), set()
    for f, t in lemmas.items():
        kit, _ = imported(t)
        for w in words_of(t):
            if w not in kit:
                (own if is_odd(w) else plain).add(w)
        plain |= kit
    for f, t in code.items():
        for path, items in IMPORT.findall(t):
            for item in items.split(","):
                if " as " in item:
                    w = item.split(" as ")[1].strip()
                    (own if is_odd(w) else plain).add(w)
    kit_everywhere = set().union(*(imported(t)[0] for t in lemmas.values()))
    both = own & {w for w in kit_everywhere if is_odd(w)}
    new = {w: spelled(w) for w in own - both}

    together = {}
    for w, s in new.items():
        together.setdefault(s, []).append(w)
    bad = [f"{' and '.join(ws)} would both be {s}" for s, ws in together.items() if len(ws) > 1]
    bad += [f"{w} would be {s}, which is there already" for w, s in new.items() if s in plain and w not in SAME]
    for line in sorted(bad):
        print(line)
    if both:
        print("of the kit in one file and ours in another: " + " ".join(sorted(both)))
    if bad and "--force" not in sys.argv:
        return 1

    def turn(text, table):
        text = WORD.sub(lambda m: table.get(m.group(0), m.group(0)), text.replace("′", "'"))
        return re.sub(r"\b(\w+) as \1\b", r"\1", text)

    for f, t in {**lemmas, **code, **edits}.items():
        kit, _ = imported(t)
        table = {w: s for w, s in new.items() if w not in kit}
        write(f, t, turn(t, table))
    for f, t in steps.items():
        kit, ours = imported(t)
        # in the proof of a function: what it imports from us, fields of ours behind a dot, and what it binds itself
        names = ours | {w for w in bound(t) if is_odd(w)}
        table = {w: new.get(w, spelled(w)) for w in names if is_odd(w) and w not in kit}
        dotted = {w: s for w, s in new.items() if w not in kit}

        def word(m):
            w = m.group(0)
            if w in table:
                return table[w]
            if m.start() and t2[m.start() - 1] == "." and w in dotted and not re.search(r"\b(goal|c|l|w)\.$", t2[: m.start()]):
                return dotted[w]
            return w

        t2 = t.replace("′", "'")
        write(f, t, WORD.sub(word, t2))
    print(f"{len(new)} names")
    return 0


def write(path, old, text):
    if text != old:
        with open(path, "w", encoding="utf-8") as out:
            out.write(text)


if __name__ == "__main__":
    os.chdir(os.path.dirname(os.path.dirname(os.path.realpath(__file__))) if os.path.basename(os.path.dirname(os.path.realpath(__file__))) == "tools" else os.getcwd())
    raise SystemExit(main())
