#!/usr/bin/env python3
"""Runs docs/TOUR.md, step by step, over the built program: bench/tour.py [--print]

Each line `$ ..` of the page is a command of one shell, in a folder of its own, and the lines behind
it are what it must print. With --print it prints the page as it would have to be.
"""
import os
import re
import shutil
import subprocess
import sys
import tempfile

TOP = os.path.dirname(os.path.dirname(os.path.realpath(__file__)))
STEP = "    $ "
MARK = "==== a step ===="


def steps_of(page):
    """The commands of a page, each with the lines that it shows."""
    steps = []
    for line in page.splitlines():
        if line.startswith(STEP):
            steps.append((line[len(STEP) :], []))
        elif line.startswith("    ") and steps:
            steps[-1][1].append(line[4:])
    return steps


def outputs_of(commands):
    """What each command prints, run in one shell in a new folder."""
    with tempfile.TemporaryDirectory() as folder:
        for name in ("tools", "examples"):
            os.symlink(os.path.join(TOP, name), os.path.join(folder, name))
        asked = subprocess.run([os.path.join(TOP, "fts"), "which"], check=True, stdout=subprocess.PIPE, text=True)
        shutil.copy(asked.stdout.strip(), os.path.join(folder, "fts"))
        script = "".join(f"echo '{MARK}'\n{it}\n" for it in commands)
        ran = subprocess.run(
            ["bash"], input=script, cwd=folder, capture_output=True, text=True, timeout=120
        )
        return [it.splitlines() for it in re.split(f"{MARK}\n", ran.stdout)[1:]]


def main():
    with open(os.path.join(TOP, "docs/TOUR.md"), encoding="utf-8") as it:
        page = it.read()
    steps = steps_of(page)
    outputs = outputs_of([command for command, _ in steps])
    wrong = 0
    for (command, wanted), seen in zip(steps, outputs, strict=True):
        if "--print" in sys.argv:
            print("\n".join([STEP + command] + ["    " + it for it in seen]))
        elif seen != wanted:
            wrong += 1
            print(f"$ {command}\n  prints {seen}\n  and not {wanted}")
    print(f"{len(steps) - wrong} steps as they should be, {wrong} not")
    return 1 if wrong else 0


if __name__ == "__main__":
    sys.exit(main())
