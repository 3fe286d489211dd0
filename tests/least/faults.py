#!/usr/bin/env python3
"""Tries tools/least itself: programs that answer wrongly must be caught, and a basis must never prove a wrong optimum.

    python3 tests/least/faults.py [PLAN PROGRAM]
"""
import importlib.machinery
import importlib.util
import os
import random
import subprocess
import sys
import tempfile

sys.dont_write_bytecode = True
TOOL = os.path.normpath(os.path.join(os.path.dirname(os.path.abspath(__file__)), "..", "..", "tools", "least"))
loader = importlib.machinery.SourceFileLoader("least", TOOL)
least = importlib.util.module_from_spec(importlib.util.spec_from_loader("least", loader))
loader.exec_module(least)

# name, and what becomes of the lines that the program prints for the sheet; `plan` tells whether they are a plan
CHANGES = [
    ("nothing", "pass"),
    ("one more", "if plan: lines[-1] = f'energy {int(lines[-1].split()[1]) + 1}'"),
    ("one less", "if plan: lines[-1] = f'energy {int(lines[-1].split()[1]) - 1}'"),
    ("always refused", "lines = [f'refused 32 {len(sheet)}']"),
    ("refused a line too early", "if not plan: lines = [f'refused 32 {len(sheet) - 1}']"),
    ("another number", "if not plan: lines = [f'refused 30 {len(sheet)}']"),
    ("never refused", "if not plan: lines = ['energy 0']"),
    ("no segments", "if plan: lines = lines[-1:]"),
    ("backwards", "if plan: lines = lines[-2::-1] + lines[-1:]"),
    ("a segment twice", "if plan: lines = lines[:1] + lines"),
    ("a segment in halves", "if plan: s, t = lines[0].split(); lines[:1] = [s + ' 1', s + f' {int(t) - 1}']"),
    ("a segment of nothing", "if plan: lines.insert(0, '1 0')"),
    ("the first two segments exchanged", "if plan and len(lines) > 2: lines[0], lines[1] = lines[1], lines[0]"),
    ("words", "lines.insert(0, 'plan')"),
    ("silence", "lines = []"),
]
WRAP = """#!{python}
import subprocess, sys
data = sys.stdin.buffer.read()
sheet = data.decode().splitlines()
lines = subprocess.run([{program!r}], input=data, stdout=subprocess.PIPE).stdout.decode().splitlines()
plan = bool(lines) and lines[-1].startswith("energy")
{change}
print("".join(line + "\\n" for line in lines), end="")
"""


def changes(program, folder):
    wrong = 0
    for name, change in CHANGES:
        path = os.path.join(folder, "wrapped")
        with open(path, "w") as file:
            file.write(WRAP.format(python=sys.executable, program=program, change=change))
        os.chmod(path, 0o755)
        run = subprocess.run([TOOL, "--program", path, "--random", "20", "--seed", "faults"], cwd=folder, stdout=subprocess.PIPE)
        expected = 0 if name == "nothing" else 1
        last = run.stdout.decode().splitlines()[-1]
        if run.returncode != expected or ("0 differences" in last.split(", ")) != (expected == 0):
            print(f"faults: {name}: status {run.returncode}: {last}")
            wrong += 1
    return wrong


def bases(folder):
    """Bases with some variables exchanged: each proves the true optimum or nothing."""
    wrong = proved = tried = 0
    for n in range(30):
        r = random.Random(f"bases/{n}")
        sheet = least.random_sheet("bases", n)
        if len(sheet.jobs) > 12:
            continue
        for lp in least.programs(sheet):
            found = least.basis(lp, folder, ["--exact"])
            value = None if found is None else least.certified(lp, found)
            if value is None:
                continue
            others = sorted(set(range(len(lp.rows) + len(lp.columns))) - set(found))
            for _ in range(30):
                changed = list(found)
                for _ in range(r.choice([1, 1, 2, 5])):
                    changed[r.randrange(len(changed))] = r.choice(others)
                tried += 1
                if len(set(changed)) == len(changed):
                    answer = least.certified(lp, changed)
                    proved += answer is not None
                    if answer not in (None, value):
                        wrong += 1
                        print(f"faults: sheet {n}: a basis proves {answer}, and the optimum is {value}")
    print(f"faults: {tried} changed bases, {proved} of them prove the optimum")
    return wrong


def main():
    program = os.path.abspath(sys.argv[1] if len(sys.argv) > 1 else "crates/plan/out/plan")
    with tempfile.TemporaryDirectory(prefix="least") as folder:
        wrong = changes(program, folder) + bases(folder)
    print(f"faults: {len(CHANGES) - 1} wrong programs, {wrong} not caught")
    return 1 if wrong else 0


if __name__ == "__main__":
    sys.exit(main())
