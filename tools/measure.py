#!/usr/bin/env python3
"""Measures `station check`: python3 tools/measure.py PROGRAM [RUNS]

Writes procedures of 1,024 nodes of ten shapes into a folder of its own, runs the program on each so many times, 500 unless told
otherwise, and prints the least and the median time and the least stack under which it ends as it should. docs/PERFORMANCE.md has
what was measured.
"""
import os
import statistics
import subprocess
import sys
import tempfile
import time

INTEGER, TRUE = 1, 15


class Table:
    """Nodes as lists kind name a b c next lo hi; the procedure is node 0, and parts get numbers as the form wants them."""

    def __init__(self):
        self.nodes = [[30, 17, 0, 0, 0, 0, 0, 0]]

    def put(self, kind, name=0, a=0, b=0, c=0, lo=0, hi=0):
        self.nodes.append([kind, name, a, b, c, 0, lo, hi])
        return len(self.nodes) - 1

    def chain(self, levels):
        """An expression of so many levels: minus of minus of .. a numeral. Its operands come first."""
        n = self.put(1, lo=1)
        for _ in range(levels - 1):
            n = self.put(3, a=n, lo=2)
        return n

    def total(self, name, levels):
        """A sum of so many levels that reads one name over and over."""
        n = self.put(2, name=name)
        for _ in range(levels - 1):
            n = self.put(4, a=n, b=self.put(2, name=name), lo=11)
        return n

    def listed(self, numbers):
        """Links a list, and answers its head."""
        for n, following in zip(numbers, numbers[1:]):
            self.nodes[n][5] = following
        return numbers[0] if numbers else 0

    def nulls(self, count):
        return [self.put(20) for _ in range(count)]

    def text(self):
        return "".join(" ".join(map(str, n)) + "\n" for n in self.nodes)


def nested(kinds, nulls):
    """Statements in one another with long lists before each, and a PUT of 32 levels in the innermost."""
    t = Table()
    shares = [nulls // 32 + (1 if i < nulls % 32 else 0) for i in range(32)]
    holder, field = 0, 3
    name = 18
    for kind, share in zip(kinds, shares):
        before = t.nulls(share)
        n = t.put(kind)
        t.nodes[holder][field] = t.listed(before + [n])
        if kind == 22:
            t.nodes[n][2] = t.put(2, name=TRUE)
            holder, field = n, 3
        elif kind == 23:
            t.nodes[n][1], t.nodes[n][6], t.nodes[n][7] = name, 1, 1
            name += 1
            holder, field = n, 2
        else:
            holder, field = n, 3
    before = t.nulls(shares[31])
    put = t.put(26)
    t.nodes[put][2] = t.chain(32)
    t.nodes[holder][field] = t.listed(before + [put])
    return t


def nulls_only():
    t = Table()
    t.nodes[0][3] = t.listed(t.nulls(1023))
    return t


def blocks_with_declarations():
    t = Table()
    holder = 0
    shares = [463 // 32 + (1 if i < 463 % 32 else 0) for i in range(32)]
    for i in range(31):
        before = t.nulls(shares[i])
        n = t.put(24)
        t.nodes[holder][3] = t.listed(before + [n])
        t.nodes[n][2] = t.listed([variable(t, 18 + 8 * i + k, None) for k in range(8)])
        holder = n
    before = t.nulls(shares[31])
    put = t.put(26)
    t.nodes[put][2] = t.chain(32)
    t.nodes[holder][3] = t.listed(before + [put])
    return t


def variable(t, name, initial):
    """A variable that begins with 1, or with the value of a name."""
    n = t.put(11, name=name, lo=INTEGER)
    t.nodes[n][2] = t.put(1, lo=1) if initial is None else t.put(2, name=initial)
    return n


def many_declarations(oldest):
    t = Table()
    t.nodes[0][2] = t.listed([variable(t, 17 + k, 17 if oldest and k else None) for k in range(256)])
    if oldest:
        statements = []
        for k in range(255):
            n = t.put(21, name=17)
            t.nodes[n][2] = t.put(2, name=17)
            statements.append(n)
        last = statements[-1]
        t.nodes[last][2] = t.put(3, a=t.nodes[last][2], lo=1)
    else:
        statements = t.nulls(511)
    t.nodes[0][3] = t.listed(statements)
    return t


def many_parameters():
    t = Table()
    t.nodes[0][2] = t.listed([t.put(10, name=17 + k, lo=INTEGER) for k in range(256)])
    statements = t.nulls(63)
    for _ in range(11):
        n = t.put(26)
        t.nodes[n][2] = t.total(17, 32)
        statements.append(n)
    t.nodes[0][3] = t.listed(statements)
    return t


def deep_expressions():
    t = Table()
    statements = []
    for _ in range(31):
        n = t.put(26)
        t.nodes[n][2] = t.chain(32)
        statements.append(n)
    t.nodes[0][3] = t.listed(statements)
    return t


SHAPES = [
    ("one list of 1,023 null statements", nulls_only),
    ("31 IFs in one another, long lists before each, an expression of 32 levels in the innermost", lambda: nested([22] * 31, 928)),
    ("the same with 31 FORs", lambda: nested([23] * 31, 959)),
    ("the same with 31 blocks", lambda: nested([24] * 31, 959)),
    ("the same with IFs, FORs and blocks in turn", lambda: nested(([22, 23, 24] * 11)[:31], 948)),
    ("31 blocks in one another of 8 declarations each", blocks_with_declarations),
    ("256 declarations in one list, then null statements", lambda: many_declarations(False)),
    ("256 declarations, each name of an expression or a target the oldest", lambda: many_declarations(True)),
    ("256 parameters, sums of 32 levels that read the oldest", many_parameters),
    ("31 expressions of 32 levels", deep_expressions),
]


def timed(command, runs):
    taken = []
    for _ in range(runs):
        start = time.perf_counter()
        subprocess.run(command, stdout=subprocess.DEVNULL, check=True)
        taken.append(1000 * (time.perf_counter() - start))
    return min(taken), statistics.median(taken)


def least_stack(command):
    """In KiB, in steps of 4: 40 runs one after another end as they should."""
    kib = 4
    while True:
        line = ["sh", "-c", f'ulimit -s {kib} && exec "$@"', "sh"] + command
        if all(subprocess.run(line, env={}, stdout=subprocess.DEVNULL, stderr=subprocess.DEVNULL).returncode == 0 for _ in range(40)):
            return kib
        kib += 4


def main():
    program = os.path.abspath(sys.argv[1])
    runs = int(sys.argv[2]) if len(sys.argv) > 2 else 500
    with tempfile.TemporaryDirectory() as folder:
        least, median = timed([program, "help"], runs)
        print(f"station help: {least:.2f} ms, {median:.2f} ms, {least_stack([program, 'help'])} KiB")
        for number, (shape, make) in enumerate(SHAPES):
            table = make()
            path = os.path.join(folder, f"{number}.txt")
            with open(path, "w", encoding="ascii") as file:
                file.write(table.text())
            told = subprocess.run([program, "check", path], capture_output=True, text=True).stdout.strip()
            command = [program, "check", path]
            least, median = timed(command, runs)
            form = timed([program, "form", path], runs)[0]
            print(f"{shape} ({len(table.nodes)} nodes) | {least:.2f} ms | {median:.2f} ms | {least_stack(command)} KiB | {told} | form {form:.2f} ms")


main()
