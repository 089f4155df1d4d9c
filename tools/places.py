#!/usr/bin/env python3
"""Lists places in crates/*/src where an older form may stand: run at the top of the repository, `python3 tools/places.py`.

It goes by tokens and not by lines: twins are functions whose bodies are alike once names of types, sizes and constants are
blanked; parameters that travel together are pairs of one name and type in three functions or more; loops by hand are loops whose
counter indexes a slice, or that change a variable by one. What it prints is to be read: it finds candidates, and no verdicts.
"""
import collections, difflib, glob, re, sys

FN = re.compile(r"^( *)(?:pub(?:\([a-z]+\))? )?fn (\w+)(?:<[^(]*>)?\(", re.M)


def functions():
    """Yields (file, name, signature, contract, body) of each function that has a body."""
    for path in sorted(glob.glob("crates/*/src/**/*.rt", recursive=True)):
        text = open(path).read()
        for at in FN.finditer(text):
            depth, i = 0, at.end() - 1
            while True:
                depth += {"(": 1, ")": -1}.get(text[i], 0)
                i += 1
                if depth == 0:
                    break
            signature = text[at.end() : i - 1]
            open_line = re.compile(r"^" + at.group(1) + r"\{|(?<=\S) \{\n", re.M).search(text, i)
            semi = text.find(";\n", i)
            if not open_line or (semi >= 0 and semi < open_line.start() and "{" not in text[i:semi]):
                continue
            start = open_line.end()
            end = re.compile(r"^" + at.group(1) + r"\}", re.M).search(text, start)
            close = end.start() if end else len(text)
            if text[start : start + 1] == "}":
                close = start
            yield path[7:], at.group(2), signature, text[i : open_line.start()], text[start:close]


def tokens(body):
    """The body's tokens, with constants, types and numbers blanked."""
    words = re.findall(r"\w+|[^\w\s]", re.sub(r"//.*", "", body))
    return ["T" if re.match(r"[A-Z]", w) else "0" if re.match(r"\d", w) else w for w in words]


def main():
    found = [it for it in functions() if "tests" not in it[0]]
    print(f"functions: {len(found)}")

    print("\n1. enums with a case that says nothing, or with a case for a refusal or fault beside others")
    for path in sorted(glob.glob("crates/*/src/**/*.rt", recursive=True)):
        text = re.sub(r"///.*", "", open(path).read())
        for at in re.finditer(r"enum (\w+) \{(.*?)\n\}", text, re.S):
            cases = re.findall(r"^    (\w+)", at.group(2), re.M)
            odd = [c for c in cases if re.match(r"(Nothing|None|Unused|Never|Empty|End|Unlisted|Refused\w*|Broken|Err|Failed|Ok)$", c)]
            if odd:
                print(f"   {path[7:]}: {at.group(1)}: {', '.join(odd)} of {len(cases)}")
    print("   flags and numbers for kinds in signatures and fields")
    for path, name, signature, contract, body in found:
        if re.search(r"-> io::Result<(bool|Option<)", contract):
            print(f"   {path}: {name}: {contract.split('->')[1].split(chr(10))[0].strip()}")
    for path in sorted(glob.glob("crates/*/src/**/*.rt", recursive=True)):
        for at in re.finditer(r"^\s+(?:pub )?(cause|kind|reason|outcome|code): u\d+", open(path).read(), re.M):
            print(f"   {path[7:]}: {at.group(0).strip()}")
    print("   matches on Option or Result whose arms pass on")
    for path, name, signature, contract, body in found:
        for at in re.finditer(r"match [^{]*\{(.*?)\n\s*\}", body, re.S):
            arms = re.findall(r"^\s*(Some|None|Ok|Err)\b[^=]*=> *(\w+|\*)", at.group(1), re.M)
            every = re.findall(r"=>", at.group(1))
            if len(arms) == len(every) == 2 and any(to in ("Some", "None", "Ok", "Err", "0", "*") for _, to in arms):
                print(f"   {path}: {name}")

    print("\n2. functions that are alike")
    blank = [(it, tokens(it[4])) for it in found]
    for i, (a, x) in enumerate(blank):
        for b, y in blank[i + 1 :]:
            if min(len(x), len(y)) >= 25 and difflib.SequenceMatcher(None, x, y, autojunk=False).ratio() >= 0.8:
                print(f"   {a[0]}: {a[1]} / {b[0]}: {b[1]}")
    by_name = collections.defaultdict(list)
    for it in found:
        by_name[it[1]].append(it[0])
    for name, where in sorted(by_name.items()):
        if len(set(where)) > 1 and name not in ("new", "fmt", "main", "from", "get", "put", "of_number", "try_from", "next"):
            print(f"   one name: {name}: {', '.join(where)}")
    for path in sorted(glob.glob("crates/*/src/**/*.rt", recursive=True)):
        for at in re.finditer(r"pub (?:struct|enum) (\w+)", open(path).read()):
            by_name["type " + at.group(1)].append(path[7:])
    for name, where in sorted(by_name.items()):
        if name.startswith("type ") and len(where) > 1:
            print(f"   one name: {name}: {', '.join(where)}")

    print("\n3. loops by hand")
    for path, name, signature, contract, body in found:
        body = re.sub(r"//.*", "", body)
        for at in re.finditer(r"for (\w+) in ([^\n{]*\.\.[^\n{]*)\{", body):
            i = at.group(1)
            used = re.search(r"\[" + i + r"\b|\b\w+\[[^\]]*\b" + i + r"\b", body[at.end() :])
            print(f"   {path}: {name}: for {i} in {at.group(2).strip()}{' indexes' if used else ''}")
        for at in re.finditer(r"for \((\w+), [^\n]*enumerate\(\) \{", body):
            if re.search(r"\[" + at.group(1) + r"\]", body[at.end() :]):
                print(f"   {path}: {name}: enumerate, and indexes by {at.group(1)}")
        for at in re.finditer(r"\b(while|loop)\b[^\n]*", body):
            print(f"   {path}: {name}: {at.group(0).strip()}")
        if re.search(r"\bfor\b|\bwhile\b", body):
            for at in re.finditer(r"^\s+(\w+) (?:[-+]= 1;|= node_at\(.*\)\.next;|= node\.next;)", body, re.M):
                print(f"   {path}: {name}: {at.group(0).strip()}")

    print("\n4. conversions, equality and printing by hand")
    for path, name, signature, contract, body in found:
        if re.match(r"(of_(number|name|word)|is_same|same|eq|word|number|cause|to_\w+|from_\w+)$", name):
            print(f"   {path}: {name}")
        if re.fullmatch(r"\s*matches!\(.*\)\s*", body, re.S):
            print(f"   {path}: {name}: matches! alone")

    print("\n5. parameters that travel together")
    together = collections.defaultdict(list)
    for path, name, signature, contract, body in found:
        names = re.findall(r"(?:^|,|\n)\s*(?:mut )?(\w+): ([^,\n]+)", signature)
        for i, a in enumerate(names):
            for b in names[i + 1 :]:
                together[tuple(sorted((f"{a[0]}: {a[1].strip()}", f"{b[0]}: {b[1].strip()}")))].append(f"{path}: {name}")
    for pair, where in sorted(together.items(), key=lambda it: -len(it[1])):
        if len(where) >= 3:
            print(f"   {len(where)}: {pair[0]} / {pair[1]}: {', '.join(w.split(': ')[1] for w in where)}")
    print("   facts that stand in three contracts or more")
    facts = collections.Counter()
    for path, name, signature, contract, body in found:
        for at in re.finditer(r"(requires|ensures) \w+ (\{.*?\})\n", contract + "\n", re.S):
            facts[at.group(1) + " " + re.sub(r"\s+", " ", at.group(2))] += 1
    for fact, count in facts.most_common():
        if count >= 3:
            print(f"   {count}: {fact}")

    print("\n6. a buffer with a length beside it, arrays side by side")
    for path in sorted(glob.glob("crates/*/src/**/*.rt", recursive=True)):
        text = open(path).read()
        for at in re.finditer(r"struct (\w+)[^{;]*\{(.*?)\n\}", text, re.S):
            if re.search(r": (&'?\w* ?mut )?(&'\w+ mut )?\[", at.group(2)) and re.search(r": (usize|u16|u32),", at.group(2)):
                print(f"   {path[7:]}: {at.group(1)}")
        for at in re.finditer(r"(\w+): (?:&(?:mut )?)?\[\w+; \w+\]", text):
            print(f"   {path[7:]}: {at.group(0)}")

    print("\n7. switches on which step to run, tables of functions")
    for path, name, signature, contract, body in found:
        arms = re.findall(r"^\s*(\w+::\w+)[^=\n]*=> (?:\{|\w+\()", body, re.M)
        if len(arms) >= 4:
            print(f"   {path}: {name}: {len(arms)} arms")


sys.exit(main())
