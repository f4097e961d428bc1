#!/usr/bin/env python3
"""Brings the repository's own definitions and lemmas to today's spelling, once, right after port.py: words in snake case, where they were in camel case or joined by dashes.

usage: python3 tools/respell.py     at the top of the repository

Functions of src/, exported names, strings, inputs and outputs keep their names. A lemma that would have a definition's name where both are read gets _lem; what else falls together stands in OTHER.
Names of the library are left as a file imports them. The script reads what port.py wrote, and prints the names that it ended by _lem.
"""

import glob
import re
import sys

# (module's last part, name) or (None, name): what would fall together, or would not say what it says
OTHER = {
    ("Operands", "aString"): "a_string_value",
    (None, "is-question"): "question_is",
    (None, "is-text"): "is_a_text",
    (None, "row-view"): "row_view_is",
    ("Layout", "readAs"): "reads_as",
    ("Answers", "noLock"): "no_lock_refusal",
    ("Answers", "noRoom"): "no_room_refusal",
    ("Forms", "too_long"): "a_token_too_long",
    ("Placed", "one-of"): "one_of_placed",
    ("Placed", "in-attribute"): "in_an_attribute",
}
WORD = r"[^\s(){};,λ\[\]⌜⌝\"?]+"
OURS = re.compile(r"Rattle\.(\w+)\.(specs|proofs)\b")
MADE = re.compile(r"\.(Tie|Lts|Goals|Given|Statement|Met|Code|contracts|declared)\b")


def snake(w):
    if not re.fullmatch(r"[A-Za-z_][\w'′-]*", w) or w.endswith("-"):
        return w
    w = w.replace("′", "'").replace("-", "_")
    if w[0].islower():
        w = re.sub(r"(?<=[a-z0-9])([A-Z])(?![A-Z]|$)", lambda m: "_" + m.group(1).lower(), w)
    return w


def pieces(text, rt):
    """The text as (kind, piece): 'code' to be respelled, 'keep' for strings and comments."""
    comment = r"//[^\n]*" if rt else r"--(?=\s)[^\n]*|--$"
    at = 0
    for m in re.finditer(r"\"(?:\\.|[^\"\\\n])*\"|'(?:\\.|[^'\\\n])'|" + comment, text, re.M):
        yield "code", text[at : m.start()]
        yield ("note" if m.group(0).startswith(("--", "//")) else "keep"), m.group(0)
        at = m.end()
    yield "code", text[at:]


def uses(text):
    """(module, name as imported, name in the file, span) of each name in a use line, and modules' aliases."""
    for m in re.finditer(r"\buse\s+([\w.'′◌+-]+?)\.\{([^}]*)\}", text):
        for n in re.finditer(r"[^,\s][^,]*", m.group(2)):
            w = n.group(0).strip()
            a = re.match(r"(\S+)\s+as\s+(\S+)", w)
            yield (m.group(1), a.group(1), a.group(2)) if a else (m.group(1), w, w)


def module_of(path):
    m = re.match(r"crates/(\w+)/(specs|proofs)/(.*)\.antt$", path)
    return f"Rattle.{m.group(1)}.{m.group(2)}." + m.group(3).replace("/", ".")


DEFINED = re.compile(r"^((?:abbrev|unfoldable|pub|data|record|syntax) )*([^\s(){};,.λ?∷]+) ((?:\([^)]*\) |\{[^}]*\} )*):(?= |$)", re.M)
INNER = re.compile(r"^ +(?:pub )?([^\s(){};,.λ?∷]+) ((?:\([^)]*\) |\{[^}]*\} )*):(?= |$)", re.M)


def clauses(text):
    """Spans of a .rt file that are antt: ghost use items, and the braces of clauses and ghost members."""
    for m in re.finditer(r"^\s*ghost use [^;]*;", text, re.M):
        yield m.span()
    for m in re.finditer(r"\b(?:requires|ensures)\*?(?: \w+)? \{|\bghost \w+(?: \w+)?: \{|\bghost invariant \w* ?\{", text):
        depth, i = 1, m.end()
        while depth:
            depth += {"{": 1, "}": -1}.get(text[i], 0)
            i += 1
        yield m.end(), i - 1


def read(path):
    with open(path, encoding="utf-8") as f:
        return f.read()


def main():
    antt = sorted(p for p in glob.glob("crates/*/specs/**/*.antt", recursive=True) + glob.glob("crates/*/proofs/**/*.antt", recursive=True))
    rts = sorted(glob.glob("crates/*/src/**/*.rt", recursive=True))
    functions = set()
    for p in rts:
        functions |= set(re.findall(r"\bfn (\w+)", read(p)))
    texts = {p: read(p) for p in antt + rts}
    defined, inner, origin, kept = {}, {}, {}, {}
    for p in antt:
        t = texts[p]
        defined[p] = {m.group(2) for m in DEFINED.finditer(t)}
        inner[p] = {m.group(1) for m in INNER.finditer(t)}
    fields = set()
    for p in antt:
        if not p.endswith("Proof.antt"):
            fields |= inner[p] | defined[p]
    for p in antt + rts:
        origin[p], kept[p] = {}, set()
        for module, w, as_ in uses(texts[p]):
            if OURS.match(module) and not MADE.search(module):
                origin[p][as_] = (module, w)
            else:
                kept[p].add(as_)
    homes = {module_of(p): p for p in antt}

    def home(p, w):
        if w in origin[p]:
            return origin[p][w]
        return (module_of(p) if p.endswith(".antt") else p, w)

    lem = set()

    def new(p, w):
        if w in kept[p]:
            return w
        module, name = home(p, w)
        last = module.split(".")[-1]
        if (last, name) in OTHER:
            return OTHER[(last, name)]
        if (None, name) in OTHER:
            return OTHER[(None, name)]
        # a name brought in under another name keeps that one
        if w in origin[p] and w != name:
            return snake(w)
        return snake(name) + ("_lem" if (module, name) in lem else "")

    def heads(p):
        t = texts[p]
        if p.endswith(".rt"):
            t = "\n".join(t[a:b] for a, b in clauses(t))
        found = set()
        for kind, x in pieces(t, p.endswith(".rt")):
            if kind == "code":
                found |= {w.split(".")[0] for w in re.findall(WORD, x)}
        return {w for w in found if re.fullmatch(r"[A-Za-z_][\w'′-]*", w)}

    # which names fall together where they are read
    for turn in range(4):
        more = set()
        for p in antt + rts:
            if p.endswith("Proof.antt"):
                continue
            groups = {}
            for w in heads(p):
                groups.setdefault(new(p, w), set()).add(w)
            for k, ws in groups.items():
                if len(ws) > 1:
                    first = sorted(ws, key=lambda w: (w in kept[p], bool(re.search("[a-z][A-Z]", w)), "-" not in w))[-1]
                    for w in ws - {first}:
                        if w not in kept[p]:
                            more.add(home(p, w))
        more -= lem
        if not more:
            break
        for module, w in sorted(more):
            print(f"_lem: {module} {w}")
        lem |= more

    def turn_code(p, t, proof):
        def word(m):
            w = m.group(0)
            parts = w.split(".")
            out = []
            for i, x in enumerate(parts):
                if i == 0:
                    own_need = proof and x in defined[p] and x not in origin[p]
                    out.append(x if own_need else new(p, x))
                elif (None, x) in OTHER:
                    out.append(OTHER[(None, x)])
                elif x in fields or x.replace("-", "_") in functions:
                    out.append(snake(x))
                else:
                    out.append(x)
            return ".".join(out)

        # use lines go by their module
        def use(m):
            module, names = m.group(1), m.group(2)
            mod = ".".join(snake(x) if x in fields and "-" in x else x for x in module.split("."))
            def one(n):
                w = n.group(0)
                a = re.match(r"(\S+)\s+as\s+(\S+)$", w)
                ours = OURS.match(module) and not MADE.search(module)
                if a:
                    left = a.group(1)
                    if ours:
                        left = renamed(module, left)
                    return f"{left} as {new(p, a.group(2)) if ours else a.group(2)}"
                return renamed(module, w) if ours else w
            return f"use {mod}.{{" + re.sub(r"[^,\s][^,]*?(?=\s*(?:,|$))", one, names) + "}"

        def renamed(module, name):
            last = module.split(".")[-1]
            if (last, name) in OTHER:
                return OTHER[(last, name)]
            if (None, name) in OTHER:
                return OTHER[(None, name)]
            if name[:1].isupper() and "-" not in name:
                return name
            return snake(name) + ("_lem" if (module, name) in lem else "")

        out, at = [], 0
        for m in re.finditer(r"\buse\s+([\w.'′◌+-]+?)\.\{([^}]*)\}", t):
            out.append(re.sub(WORD, word, t[at : m.start()]))
            out.append(use(m))
            at = m.end()
        out.append(re.sub(WORD, word, t[at:]))
        return "".join(out)

    everywhere = {w for p in antt if not p.endswith("Proof.antt") for w in defined[p] | inner[p] if re.search("[a-z][A-Z]|[a-z]-[a-z]", w)}

    def note(p, x):
        return re.sub(r"`([^`\s]+)`", lambda m: "`" + (new(p, m.group(1)) if m.group(1) in everywhere else m.group(1)) + "`", x)

    for p in antt:
        proof = p.endswith("Proof.antt")
        t = "".join(turn_code(p, x, proof) if k == "code" else note(p, x) if k == "note" else x for k, x in pieces(texts[p], False))
        if t != texts[p]:
            with open(p, "w", encoding="utf-8") as f:
                f.write(t)
    for p in rts:
        t, out, at = texts[p], [], 0
        for a, b in sorted(clauses(t)):
            if a < at:
                continue
            out.append(t[at:a])
            out.append("".join(turn_code(p, x, False) if k == "code" else x for k, x in pieces(t[a:b], True)))
            at = b
        out.append(t[at:])
        new_text = "".join(out)
        # a parameter that would hide a definition
        for m in re.finditer(r"\bfn (\w+)(?:<[^>]*>)?\(([^)]*)\)", new_text):
            params = re.findall(r"(?:^|[(,] ?)(?:mut )?(\w+):", m.group(2))
            body = new_text[m.end() : new_text.find("\n{", m.end())]
            for q in params:
                if q in {new(p, w) for w in origin[p]}:
                    if re.search(rf"(?<![\w.]){q}(?![\w])", body):
                        print(f"look: {p}: parameter {q} of {m.group(1)}")
        if new_text != t:
            with open(p, "w", encoding="utf-8") as f:
                f.write(new_text)


if __name__ == "__main__":
    sys.exit(main())
