#!/usr/bin/env python3
"""Spells the names of definitions and lemmas as today's Rattle does.

    python3 tools/respell.py [--list]

Types, facts and relations are in upper camel case, all else in snake case; in a lemma a dash stays where it joins the name of a
function to another. Names of src/, strings, inputs and outputs are left alone. Run once, at the top of the repository, after the
spelling of the toolchain's own names was brought over. With --list it prints the names, old and new, and what falls together.
"""
import glob
import re
import sys

TOKEN = re.compile(r"[\w'\-]+")
DEFINED = re.compile(r"^(\s*)(?:(?:abbrev|unfoldable|pub|record|data)\s+)*([\w'\-]+)((?:\s+[\w'\-]+)*)\s*(?:[({].*[)}])?\s*:\s+(.*)$")
RULESET = re.compile(r"^\s*(?:pub\s+)?ruleset\s+([\w'\-]+)\s*=")
LET = re.compile(r"\blet\s+([\w'\-]+)\s*[:=]")
# functions of the library that lemmas are named after
WORDS = {"length", "take", "drop", "set", "reverse", "append", "map", "get_or", "slice_get", "none", "some", "all"}
OLD_WORDS = {"getD": "get_or", "nth": "slice_get"}


def snake(name):
    name = re.sub(r"(?<=[a-z0-9])([A-Z])", lambda m: "_" + m.group(1).lower(), name)
    return name.replace("-", "_")


def camel(name):
    return "".join(part[:1].upper() + part[1:] for part in re.split(r"[-_]", name) if part)


def defined_in(path):
    """The names that a file defines, and whether each is local."""
    answers = path.count("/") > 3 and "/proofs/" in path
    for line in open(path, encoding="utf-8"):
        text = line.strip()
        if text.startswith(("--", "use ", "open ")):
            continue
        for m in LET.finditer(line):
            yield m.group(1), True
        m = RULESET.match(line)
        if m:
            yield m.group(1), False
            continue
        m = DEFINED.match(line)
        if not m or m.group(2) in ("let", "where", "unfolding", "module"):
            continue
        if answers and re.match(r"(goal|given|need)\.", m.group(4)):
            continue
        for name in [m.group(2)] + m.group(3).split():
            yield name, False


def imported_from_library(paths):
    names = set()
    for path in paths:
        for line in open(path, encoding="utf-8"):
            m = re.match(r"\s*(?:ghost )?use (?!Rattle\.(?!std\b))[^{]*\{(.*)\}", line)
            if m:
                for part in m.group(1).split(","):
                    names.add(part.split(" as ")[0].strip())
    return names


def spelling():
    specs = glob.glob("crates/*/specs/**/*.antt", recursive=True)
    proofs = glob.glob("crates/*/proofs/**/*.antt", recursive=True)
    library = imported_from_library(specs + proofs + glob.glob("crates/*/src/**/*.rt", recursive=True))
    of_specs, of_proofs = set(), set()
    for path in specs:
        of_specs |= {name for name, _ in defined_in(path)}
    for path in proofs:
        of_proofs |= {name for name, _ in defined_in(path)}
    of_proofs -= of_specs
    words = set(WORDS) | {snake(n) for n in of_specs if n[:1].islower()}

    def lemma(name):
        parts = [OLD_WORDS.get(p, p) for p in name.split("-")]
        for i in range(1, len(parts)):
            left, right = snake("-".join(parts[:i])), snake("-".join(parts[i:]))
            if left in words and right in words:
                return left + "-" + right
        return snake("-".join(parts))

    new = {}
    for name in sorted(of_specs | of_proofs):
        if name in library or not re.search(r"[A-Z\-]", name) or name[:1] in "-'":
            continue
        if name[:1].isupper():
            to = camel(name) if "-" in name else name
        elif name in of_specs:
            to = snake(name)
        else:
            to = lemma(name)
        if to != name:
            new[name] = to
    return new, of_specs | of_proofs, library


def respelled(text, new):
    return TOKEN.sub(lambda m: new.get(m.group(0), m.group(0)), text)


def respelled_source(text, new):
    out = []
    for line in text.split("\n"):
        if line.lstrip().startswith("//"):
            out.append(line)
            continue
        parts = re.split(r'("(?:[^"\\]|\\.)*")', line)
        out.append("".join(p if i % 2 else respelled(p, new) for i, p in enumerate(parts)))
    return "\n".join(out)


def respelled_page(text, new):
    """Names in a page stand between backticks."""
    return re.sub(r"`[^`\n]*`", lambda m: respelled(m.group(0), new), text)


def main():
    new, names, library = spelling()
    taken = {}
    for name in sorted(names | library):
        taken.setdefault(new.get(name, name), []).append(name)
    for to, olds in sorted(taken.items()):
        if len(olds) > 1 and any(o in new for o in olds):
            print("falls together:", to, "of", ", ".join(olds))
    if "--list" in sys.argv:
        for name, to in sorted(new.items()):
            print(name, to)
        return
    def rewrite(paths, how):
        for path in paths:
            text = open(path, encoding="utf-8").read()
            after = how(text, new)
            if after != text:
                open(path, "w", encoding="utf-8").write(after)
    rewrite(glob.glob("crates/*/specs/**/*.antt", recursive=True) + glob.glob("crates/*/proofs/**/*.antt", recursive=True), respelled)
    rewrite(glob.glob("crates/*/src/**/*.rt", recursive=True) + glob.glob("crates/*/must-fail/*.edit"), respelled_source)
    rewrite(glob.glob("docs/*.md") + ["README.md"], respelled_page)


main()
