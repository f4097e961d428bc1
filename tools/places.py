#!/usr/bin/env python3
"""Counts in src/ the places of the eight points of docs/DESIGN-PASS.md: tools/places.py [-v] [COMMIT], without a commit in the tree as it is. -v prints each place.

By text alone, so it finds places to look at and no more; the page says what each is.
"""
import os
import re
import subprocess
import sys

ROOT = os.path.dirname(os.path.dirname(os.path.abspath(__file__)))
words = [w for w in sys.argv[1:] if w != "-v"]
verbose = "-v" in sys.argv[1:]
commit = words[0] if words else None


def run(*command):
    return subprocess.run(command, cwd=ROOT, stdout=subprocess.PIPE, check=True, text=True).stdout


def files(tail):
    if commit:
        names = run("git", "ls-tree", "-r", "--name-only", commit, "crates").splitlines()
    else:
        names = run("git", "ls-files", "crates").splitlines()
    for name in names:
        if re.search(tail, name):
            if commit:
                yield name, run("git", "show", f"{commit}:{name}")
            elif os.path.exists(os.path.join(ROOT, name)):
                with open(os.path.join(ROOT, name), encoding="utf-8") as f:
                    yield name, f.read()


SRC = list(files(r"^crates/\w+/src/.*\.rt$"))
ANSWERS = list(files(r"^crates/\w+/proofs/.*\.antt$"))


def code(text):
    """The text without its comments."""
    return re.sub(r"//[^\n]*", "", text)


def functions(text):
    """Each function: its name, its parameters and its clauses."""
    for m in re.finditer(r"\bfn (\w+)(?:<[^>]*>)?\(([^{]*?)\)(?: -> [^\n{]*)?\n((?:    (?:requires|ensures)[^\n]*\n(?:        [^\n]*\n)*)*)", text):
        parameters = [p for p in re.split(r",\s*", m[2].replace("\n", " ").strip()) if ":" in p or "self" in p]
        yield m[1], parameters, m[3]


def enums():
    for name, text in SRC:
        for m in re.finditer(r"^(?:pub )?enum (\w+)(?:<[^>]*>)? \{\n(.*?)^\}", code(text), re.M | re.S):
            variants = re.findall(r"^    (\w+)(\([^\n]*\))?,", m[2], re.M)
            if len(variants) == 2 and any(v[1] for v in variants):
                yield f"{name}: {m[1]}"
            if len(variants) == 3 and all(v[1] for v in variants):
                yield f"{name}: {m[1]}"


def flagged():
    for name, text in SRC:
        for m in re.finditer(r"^(?:pub )?struct (\w+)(?:<[^>]*>)? \{\n(.*?)^\}", code(text), re.M | re.S):
            if re.search(r"\b(good|asks|is_some|found|sort): ", m[2]):
                yield f"{name}: {m[1]}"


def zeros():
    for name, text in SRC:
        for m in re.finditer(r"^\s*// (.*\b(?:and|or|;|,|:)? ?(?:all |sort )?0 (?:where|for none|also|and 0 for)[^\n]*|[^\n]*; 0: none[^\n]*|[^\n]*and 0 past the last row[^\n]*)$", text, re.M):
            yield f"{name}: {m[1][:110]}"


def numbers():
    for name, text in SRC:
        for m in re.finditer(r"^(?:pub )?const (\w+): u8 = ", text, re.M):
            yield f"{name}: {m[1]}"


def refusal_literals():
    for name, text in SRC:
        if "/desk" in name or "_vectors" in name or "bench_" in name:
            continue
        for m in re.finditer(r"(?:Refused|Err|Unfit|Refusal)\((\d+)\)|return (2\d);|=> (2\d)\b", code(text)):
            yield f"{name}: {m[0]}"


def twins():
    for name, text in SRC:
        names = [f[0] for f in functions(text)]
        for n in names:
            stem = re.sub(r"(_\d+|_one|_two|_three|_four|four_|two_|first$|second$|third$)", "", n)
            if stem != n and sum(re.sub(r"(_\d+|_one|_two|_three|_four|four_|two_|first$|second$|third$)", "", o) == stem for o in names) > 1:
                yield f"{name}: {n}"


def same_names():
    seen = {}
    for name, text in SRC:
        if "_c/" in name:
            continue
        for n, _, _ in functions(text):
            if n not in ("main", "new", "report", "vector", "run", "answer", "page"):
                seen.setdefault(n, []).append(name)
    for n, places in sorted(seen.items()):
        if len(places) > 1:
            yield f"{n}: {' '.join(places)}"


def loops():
    for name, text in SRC:
        for m in re.finditer(r"^\s*((?:'\w+: )?while [^\n]*|loop) \{$", code(text), re.M):
            yield f"{name}: {m[1]}"


def by_hand():
    for name, text in SRC:
        for n, _, _ in functions(text):
            if n in ("same", "before", "same_flag", "same_string", "wide", "whole", "one_if", "bit_of", "bit", "digit", "put_decimal", "number_of", "number4", "low_of", "high_of", "joined", "of_two_bytes",
                     "two_bytes", "number_in", "with_byte", "from_zero", "is_yes", "is_finite", "byte", "byte_past", "bits_at", "clear", "fill", "copy", "put", "put_word", "put_byte"):
                yield f"{name}: {n}"


def repeated_fields():
    for name, text in SRC:
        for m in re.finditer(r"^\s+(\w+): \1,$", code(text), re.M):
            yield f"{name}: {m[1]}"


def long_lists():
    for name, text in SRC:
        for n, parameters, _ in functions(text):
            if len(parameters) > 5:
                yield f"{name}: {n} {len(parameters)}"


def facts():
    found = {}
    for name, text in SRC:
        for n, _, clauses in functions(text):
            for r in re.findall(r"requires[^{]*\{(.*)\}", clauses):
                for w in re.findall(r"classes\.now ≡ class_table|\b[A-Z]\w+(?= [\w.(])|length \w+\.old ≡ \w+", r):
                    if w not in ("OnOk", "OnErr"):
                        found.setdefault(w, set()).add((name, n))
    for w, places in sorted(found.items(), key=lambda x: -len(x[1])):
        if len(places) > 2:
            yield f"{w}: {len(places)} functions"


def buffers():
    for name, text in SRC:
        for n, parameters, _ in functions(text):
            joined = " ".join(parameters)
            if re.search(r"&mut \[u\d+\]", joined) and re.search(r"\b(at|to|filled): usize", joined):
                yield f"{name}: {n}"


def switches():
    for name, text in SRC:
        for n, parameters, _ in functions(text):
            for p in parameters:
                if re.match(r"\w+: (bool|Unrepeated)$", p):
                    yield f"{name}: {n}({p})"


def plain_answers():
    for name, text in ANSWERS:
        for m in re.finditer(r"^(\S+ c|.*\bc) = search rules$", text, re.M):
            yield f"{name}: {m[0]}"


POINTS = [
    ("1 own enums of the shape of Option or Result", enums),
    ("1 flags or sorts with a value beside them", flagged),
    ("1 numbers for kinds or refusals: constants", numbers),
    ("1 numbers for refusals: literals", refusal_literals),
    ("1 zero for none, as the comments say", zeros),
    ("2 twins by their names", twins),
    ("2 functions of one name in several crates", same_names),
    ("3 while and loop", loops),
    ("4 functions that do what a derive or the library does", by_hand),
    ("4 fields written `x: x`", repeated_fields),
    ("5 functions of more than five parameters", long_lists),
    ("5 facts that three or more functions require", facts),
    ("6 a lent buffer with a place beside it", buffers),
    ("7 flags that pick a step", switches),
    ("8 answers that are `search rules` alone", plain_answers),
]
for title, places in POINTS:
    found = list(places())
    print(f"{len(found):5}  {title}")
    if verbose:
        for place in found:
            print(f"         {place}")
print(f"{sum(len(re.findall(r'^ *for ', code(t), re.M)) for _, t in SRC):5}  `for` loops, to compare")
print(f"{sum(t.count(chr(10)) for _, t in SRC):5}  lines of src/")
print(f"{sum(t.count(chr(10)) for _, t in ANSWERS):5}  lines of proofs/")
