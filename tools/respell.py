#!/usr/bin/env python3
"""Brings the repository's own definitions and lemmas to the spelling of the Rattle of 2026-11: run once, at the top, after the kit's port.py.

Words are in snake case, and a dash joins two names: `alOf-zero` becomes `al_of-zero`, `le-or-lt` becomes `le_or_lt`.
It rewrites .antt and .rt files, must-fail edits, and what README.md and docs/ name between backticks. Functions of src/, strings, inputs and outputs keep their names.
Prints each name that changed. Refuses to run where two names would fall together.
"""
import pathlib
import re
import sys

ROOT = pathlib.Path(sys.argv[1] if len(sys.argv) > 1 else ".")
NAME = re.compile(r"[A-Za-z0-9_'₀-₉≡≤≢∷⊎ℕ][A-Za-z0-9_'₀-₉≡≤≢∷⊎ℕ\-]*")
STRING = re.compile(r'"[^"\n]*"|[^"]+|"')

# Names whose plain spelling is taken: by a field of the code (maxS and the other loads), or by a lemma about the word.
OWN = {
    "maxS": "cl_max_s",
    "minN": "cl_min_n",
    "maxN": "cl_max_n",
    "nutN": "cl_nut_n",
    "getD": "get_or",
}
# What a lemma says of a word, spelt by std as a name.
WORDS = set("add sub mul div mod pow le lt eq zero one suc pos neg cons append length map take drop set leb ltb eqb get_or cond pick reverse replicate all elim".split())
# Lemmas whose plain spelling is that of a definition or of a function of src/.
LEMMA = {name: name.replace("-", "_") + "_lem" for name in (
    "a1-line aluminium-limit judged-pair judged-values months-length name-value sample-written site-at site-line stand-value value-at written-again".split()
)}
LEMMA.update({name: name + "_lem" for name in ("given_by", "no_items", "not_negative", "numbers_of")})


def own_files():
    yield from sorted(ROOT.glob("crates/*/specs/**/*.antt"))
    yield from sorted(ROOT.glob("crates/*/proofs/**/*.antt"))


def bare(text):
    return re.sub(r"--[^\n]*", "", text)


def snake(word):
    word = re.sub(r"([A-Z])([A-Z][a-z])", r"\1_\2", word)
    return re.sub(r"([a-z0-9])([A-Z])", lambda m: m.group(1) + "_" + m.group(2).lower(), word)


def camel(word):
    return bool(re.match(r"[a-z][a-z0-9_]*[A-Z]", word))


def respelt(word):
    return OWN.get(word, snake(word) if camel(word) else word)


DECLARED = re.compile(r"^[ ]*(?:(?:abbrev|unfoldable|pub)\s+)*([^\s:(){}.,;λ]+)(?:\s+[({][^\n]*)?\s*:(?=\s)", re.M)
MARGIN = re.compile(r"^(?:(?:abbrev|unfoldable|pub)\s+)*([^\s:(){}.,;λ]+)(?:\s+[({][^\n]*)?\s*:(?=\s)", re.M)


def collect():
    """Every token, the words that stand at the left margin, and the names with a dash that lemma files declare."""
    tokens, plain, dashed = set(), set(), set()
    for path in own_files():
        text = bare(path.read_text())
        tokens.update(NAME.findall(text))
        answers = path.name == "Proof.antt"
        for name in DECLARED.findall(text):
            if "-" in name and not answers:
                dashed.add(name)
        if "specs" in path.parts:
            plain.update(name for name in MARGIN.findall(text) if "-" not in name)
    return tokens, plain, dashed


def lemma(name, words):
    """A dash stays where it joins two names, else it becomes an underscore."""
    parts = [respelt(p) for p in name.split("-")]
    done = parts[0]
    for part in parts[1:]:
        done += ("-" if done in words and part in words else "_") + part
    return done


def table():
    tokens, plain, dashed = collect()
    words = WORDS | {respelt(p) for p in plain if p[0].islower() and len(p) > 2}
    names = {t: respelt(t) for t in tokens if "-" not in t and respelt(t) != t}
    names.update({t: new for t, new in LEMMA.items() if t in tokens})
    for name in sorted(dashed):
        new = LEMMA.get(name, lemma(name, words))
        if new != name:
            names[name] = new
    return tokens, names


def main():
    tokens, names = table()
    code = set()
    for path in ROOT.glob("crates/*/src/**/*.rt"):
        code.update(re.findall(r"[A-Za-z_][A-Za-z0-9_]*", re.sub(r"//[^\n]*", "", path.read_text())))
    seen, clash = {}, []
    for old, new in sorted(names.items()):
        if new in seen or new in tokens and new not in code and new not in names or ("-" in old and new in code):
            clash.append(f"{old} -> {new}" + (f", as {seen[new]}" if new in seen else ""))
        seen[new] = old
    for old, new in sorted(names.items()):
        print(f"{old} {new}")
    if clash:
        sys.exit("fall together:\n" + "\n".join(clash))
    swap = lambda text: STRING.sub(lambda m: m.group() if m.group().startswith('"') else NAME.sub(lambda n: names.get(n.group(), n.group()), m.group()), text)
    for pattern in ("crates/*/specs/**/*.antt", "crates/*/proofs/**/*.antt", "crates/*/src/**/*.rt", "crates/*/must-fail/*.edit"):
        for path in ROOT.glob(pattern):
            old = path.read_text()
            new = swap(old)
            if new != old:
                path.write_text(new)
    for path in [ROOT / "README.md", *(ROOT / "docs").glob("**/*.md")]:
        old = path.read_text()
        new = re.sub(r"`[^`\n]+`", lambda m: swap(m.group()), old)
        if new != old:
            path.write_text(new)


main()
