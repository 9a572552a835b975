#!/usr/bin/env python3
"""What stands in the signatures and contracts of three or more functions of a crate.

    tools/repeats.py [COMMIT]     reads crates/*/src as of the commit (HEAD)

Lists, for each crate, the atoms of `requires` that three or more functions have, and the groups of two or more
parameters (name and type) that three or more functions take together.
"""
import itertools, re, subprocess, sys

commit = sys.argv[1] if len(sys.argv) > 1 else "HEAD"
names = subprocess.run(["git", "ls-tree", "-r", "--name-only", commit, "crates"], text=True, capture_output=True, check=True).stdout.split()
crates = {}
for name in names:
    if re.match(r"crates/[^/]+/src/.*\.rt$", name):
        text = subprocess.run(["git", "show", f"{commit}:{name}"], text=True, capture_output=True, check=True).stdout
        crates.setdefault(name.split("/")[1], []).append((name, text))


def functions(text):
    for m in re.finditer(r"\bfn (\w+)", text):
        end = re.search(r"^\s*\{\}?$|;\n|\{\n", text[m.end():], re.M)
        yield m.group(1), text[m.start(): m.end() + (end.start() if end else 0)]


def atoms(clause):
    clause = re.sub(r"\.(now|old|new)\b", "", clause)
    return {part.strip(" ()") for part in re.split(r"×", clause) if part.strip(" ()")}


def parameters(head):
    m = re.search(r"\((.*?)\)\s*(?:->|\n|$)", head, re.S)
    return {re.sub(r"\s+", " ", p.strip()).replace("mut ", "") for p in (m.group(1).split(",\n") if m and "\n" in m.group(1) else m.group(1).split(", ") if m else []) if ":" in p}


facts = groups = 0
for crate, files in sorted(crates.items()):
    asked, taken = {}, {}
    for name, text in files:
        for fn, head in functions(text):
            for clause in re.findall(r"requires(?: \w+)? \{ (.*) \}$", head, re.M):
                for atom in atoms(clause):
                    asked.setdefault(atom, set()).add(fn)
            for pair in itertools.combinations(sorted(parameters(head)), 2):
                taken.setdefault(pair, set()).add((name, fn))
    for atom, who in sorted(asked.items()):
        if len(who) >= 3:
            facts += 1
            print(f"{crate}: fact in {len(who)}: {atom}   [{', '.join(sorted(who))}]")
    for pair, who in sorted(taken.items()):
        if len(who) >= 3:
            groups += 1
            print(f"{crate}: together in {len(who)}: {'; '.join(pair)}")
print(f"facts {facts}, pairs of parameters {groups}")
