#!/usr/bin/env python3
"""Leaves out rules of what is permitted, one after another, and sees that a law refuses what is left.

usage: rules.py [NAME..]

Each of rules/NAME.edit has a line `law:` with the crate whose law rests on the rule, a line `file:` with a file of
crates/, and a line `after:`, behind whose text the first line with the text of `old:` gets that of `new:` in its place.
It is applied in a copy of this checkout, and the check of the law's crate, or of one that it stands on, has to fail
there for want of a proof. As all crates between are checked there, a trial takes minutes: run them where a rule or one
of these laws changes. What a law lets through, and what is no edit of this tree, is printed and fails.
"""
import os
import shutil
import subprocess
import sys
import tempfile

HERE = os.path.dirname(os.path.abspath(__file__))
TOP = os.path.dirname(HERE)


def parts(name):
    with open(f"{HERE}/rules/{name}.edit", encoding="utf-8") as it:
        lines = [line.rstrip("\n").partition(": ") for line in it if ": " in line]
    found = {key: text for key, _, text in lines}
    missing = [key for key in ("law", "file", "after", "old", "new") if key not in found]
    if missing or len(lines) != 5:
        raise ValueError(f"{name}: it wants one line each of law, file, after, old and new")
    return found


def listed():
    """The lines of crates.txt, by their crates."""
    with open(f"{TOP}/crates.txt", encoding="utf-8") as it:
        lines = [line for line in it if line.partition("#")[0].strip()]
    return {line.partition(":")[0].split()[0]: line for line in lines}


def below(crates, lines):
    """These crates and those of the repository that they stand on."""
    found, left = set(), list(crates)
    while left:
        crate = left.pop()
        if crate in lines and crate not in found:
            found.add(crate)
            left += lines[crate].partition(":")[2].split()
    return found


def edited(name, text, edit):
    """The text with the edit in it."""
    if text.count(edit["after"]) != 1:
        raise ValueError(f"{name}: the text of 'after' does not stand once in {edit['file']}")
    place = text.index(edit["old"], text.index(edit["after"]))
    return text[:place] + edit["new"] + text[place + len(edit["old"]):]


def is_refused(copy, name):
    edit = parts(name)
    path = f"{copy}/crates/{edit['file']}"
    with open(path, encoding="utf-8") as it:
        text = it.read()
    changed = edited(name, text, edit)
    with open(path, "w", encoding="utf-8") as it:
        it.write(changed)
    law = f"{copy}/crates/{edit['law']}"
    check = subprocess.run(["rt", "check"], cwd=law, capture_output=True, text=True, check=False)
    with open(path, "w", encoding="utf-8") as it:
        it.write(text)
    said = check.stdout + check.stderr
    refused = check.returncode != 0 and "logic=not-proved" in said
    tried = [line.split()[-1] for line in said.splitlines() if line.startswith("rt: chose --jobs")]
    print(f"{name}: {'refused' if refused else 'NOT REFUSED'}, at {tried[-1] if tried else 'no crate'}", flush=True)
    if not refused:
        print("\n".join(said.splitlines()[-3:]))
    return refused


def main():
    names = sys.argv[1:] or sorted(it[:-5] for it in os.listdir(f"{HERE}/rules") if it.endswith(".edit"))
    lines = listed()
    crates = below([parts(name)["law"] for name in names], lines)
    copy = tempfile.mkdtemp()
    try:
        # (with what was built here, so that only what an edit changes is checked)
        for crate in crates:
            shutil.copytree(f"{TOP}/crates/{crate}", f"{copy}/crates/{crate}")
        shutil.copy(f"{TOP}/HANDLES", copy)
        with open(f"{copy}/crates.txt", "w", encoding="utf-8") as it:
            it.writelines(line for crate, line in lines.items() if crate in crates)
        return all([is_refused(copy, name) for name in names])
    finally:
        shutil.rmtree(copy)


if __name__ == "__main__":
    sys.exit(0 if main() else 1)
