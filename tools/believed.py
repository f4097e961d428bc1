#!/usr/bin/env python3
"""Which files of specs/ a reader must believe, and how many of their lines, to believe the desk's page.

    tools/believed.py [-v] [NAME ..]
    tools/believed.py --plan README.md

From the records of the desk's page (or the NAMEs given) it follows every name that a definition uses, through the files' `use` lines, and prints for each file
how many lines its reached definitions have, with the comments above them, and their names with -v. With --plan it holds the reading plan to that: each file must be named there,
with its lines. What a definition of specs/ rests on in the toolchain's library
is not counted, and neither are the types that a contract declares in src/, nor the definitions of what the calls answer and leave: the page says of each what it is.
"""
import glob
import os
import re
import sys

# what the calls answer and leave: the contracts' own definitions, of which the page says what they are, so that they need not be read
SAID = ["compile_says", "compile_leaves", "begins_says", "decide_says", "lookup_says", "string_says", "sheet_says", "sheet_leaves", "tally_says", "tally_leaves", "rows_say", "lock_says", "lock_leaves"]
ROOTS = ["DemandOne", "DemandTwo", "Versions", "DemandThree", "TheTallies", "LookUps", "Refusals", "Locks", "OneResult"]
os.chdir(os.path.join(os.path.dirname(os.path.abspath(__file__)), ".."))
NAME = r"[^\s(){},.;λ→×⊎↔¬\"]+"


def module_of(path):
    """crates/tokens/specs/Forms.antt -> ('tokens', 'Forms')"""
    parts = path.split("/")
    return parts[1], parts[3][: -len(".antt")]


class File:
    def __init__(self, path):
        self.path = path
        self.crate, self.module = module_of(path)
        self.definitions = {}  # name -> (first line, last line, text)
        self.owner = {}  # a constructor or a field -> the definition that it stands in
        self.brings = {}  # name -> (crate, module)
        self.aliases = {}  # alias -> (crate, module)
        self.passes = {}  # what is handed on by `pub use`
        self.read(open(path, encoding="utf-8").read().split("\n"))

    def read(self, lines):
        starts = []
        for i, line in enumerate(lines):
            if re.match(r"((abbrev|unfoldable) )?(pub )?use ", line):
                self.use(line)
            head = re.match(r"(?:(?:abbrev|unfoldable) )?(?:pub )?(?:(?:record|data) )?(" + NAME + r")(?: .*)?:(?: |$)", line)
            if head and not line.startswith(("use ", "--", " ")) and " use " not in line:
                starts.append((i, head.group(1)))
        for k, (i, name) in enumerate(starts):
            end = starts[k + 1][0] if k + 1 < len(starts) else len(lines)
            first = i
            while first > 0 and lines[first - 1].startswith("--") and not lines[first - 1].startswith("-- ----"):
                first -= 1
            while end > i + 1 and (not lines[end - 1].strip() or lines[end - 1].startswith("--")):
                end -= 1
            text = "\n".join(line for line in lines[i:end] if not line.strip().startswith("--"))
            self.definitions[name] = (first, end, text)
            if re.match(r"(pub )?(record|data) ", lines[i]):
                for line in lines[i + 1 : end]:
                    part = re.match(r"  (?:pub )?(" + NAME + r") :", line)
                    if part:
                        self.owner.setdefault(part.group(1), name)

    def use(self, line):
        line = line.strip()
        handed = "pub use" in line
        m = re.match(r".*?use (\S+?)(?: as (\S+))?$", re.sub(r"\.\{.*\}$", "", line))
        path = m.group(1) if m else ""
        names = re.search(r"\.\{(.*)\}$", line)
        parts = path.split(".")
        if parts[0] != "Rattle" or len(parts) < 3:
            return
        crate = parts[1]
        rest = [p for p in parts[2:] if p != "specs"]
        if not rest or rest[0] == "declared":
            return
        where = (crate, rest[0])
        if m.group(2):
            self.aliases[m.group(2)] = where
        if names:
            for name in names.group(1).split(","):
                name = name.strip().split(" as ")[0].split(".")[-1]
                (self.passes if handed else self.brings)[name] = where
                self.brings[name] = where


def planned(readme):
    """What the reading plan names: a file of specs/ and the number behind it."""
    plan, on, crate = {}, False, None
    for line in open(readme, encoding="utf-8"):
        if line.startswith("## "):
            on = line.startswith("## Reading it")
        if not on or not line.startswith("|"):
            continue
        for m in re.finditer(r"(?:crates/(\w+)/specs/)?(\w+)\.antt(?: (\d+))?", line):
            crate = m.group(1) or crate
            if m.group(3):
                plan[f"crates/{crate}/specs/{m.group(2)}.antt"] = int(m.group(3))
    return plan


def hold(plan, counted, readme):
    wrong = 0
    for path in sorted(set(plan) | set(counted)):
        if plan.get(path) != counted.get(path):
            wrong += 1
            print(f"{readme}: {path}: {counted.get(path, 0)} lines are to be believed, the reading plan says {plan.get(path, 'nothing')}")
    if wrong:
        sys.exit(f"{wrong} files of the reading plan are not as they should be: tools/believed.py prints what each has")
    print(f"the reading plan names {len(plan)} files with {sum(plan.values())} lines: all that must be believed")


def main():
    plan = sys.argv[2] if sys.argv[1:2] == ["--plan"] else None
    words = [w for w in sys.argv[1:] if not w.startswith("-") and w != plan]
    verbose = "-v" in sys.argv[1:]
    files = {module_of(p): File(p) for p in glob.glob("crates/*/specs/*.antt")}

    def find(where, name, depth=0):
        f = files.get(where)
        if f is None or depth > 5:
            return None
        if name in f.definitions:
            return where, name
        if name in f.owner:
            return where, f.owner[name]
        if name in f.passes:
            return find(f.passes[name], name, depth + 1)
        return None

    todo = []
    for root in words or ROOTS:
        for where, f in files.items():
            if root in f.definitions and (words or where == ("desk", "Promises")):
                todo.append((where, root))
    # and what the contracts of the desk's calls say beside it
    if not words:
        todo.append((("targets", "Matching"), "request"))
    reached = set()
    while todo:
        item = todo.pop()
        if item in reached or (item[0][0] == "desk" and item[1] in SAID):
            continue
        reached.add(item)
        where, name = item
        f = files[where]
        text = f.definitions[name][2]
        for alias, to in f.aliases.items():
            for m in re.finditer(r"(?<![\w.])" + re.escape(alias) + r"\.(" + NAME + ")", text):
                got = find(to, m.group(1))
                if got:
                    todo.append(got)
        for word in set(re.findall(NAME, text)):
            if word in f.definitions:
                todo.append((where, word))
            elif word in f.owner:
                todo.append((where, f.owner[word]))
            elif word in f.brings:
                got = find(f.brings[word], word)
                if got:
                    todo.append(got)
    total = 0
    by_file = {}
    for where, name in reached:
        first, end, _ = files[where].definitions[name]
        by_file.setdefault(where, []).append((first, end, name))
    if plan:
        hold(planned(plan), {files[w].path: sum(end - first for first, end, _ in found) for w, found in by_file.items()}, plan)
        return
    for where in sorted(by_file):
        lines = sum(end - first for first, end, _ in by_file[where])
        total += lines
        print(f"{lines:5} {files[where].path}")
        if verbose:
            print("      " + " ".join(name for _, _, name in sorted(by_file[where])))
    print(f"{total:5} lines in {len(by_file)} files")


main()
