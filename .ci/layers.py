#!/usr/bin/env python3
"""Says whether crates.txt and crates/README.md show the same layers, and whether these hold.

In crates.txt a line `# NAME: WORDS` heads a layer, and the lines of crates below it are of this layer. Each crate is to
stand under a heading, and on crates above its own line alone. crates/README.md is to have a heading `## NAME` for each
layer, with a row of a table for each crate, in the same order. What is otherwise is printed, and the status is 1.
"""
import os
import re
import sys

TOP = os.path.dirname(os.path.dirname(os.path.abspath(__file__)))
HEADING = re.compile(r"# ([A-Z][^:]*): ")
ROW = re.compile(r"\| \[`(\w+)`\]\((\w+)\) \|")


def listed():
    """The layers of crates.txt with their crates, what each crate names, and what is wrong with the list."""
    layers, names, faults = [], {}, []
    with open(os.path.join(TOP, "crates.txt"), encoding="utf-8") as it:
        for line in it:
            heading = HEADING.match(line)
            if heading:
                layers.append((heading.group(1), []))
                continue
            head, _, rest = line.partition("#")[0].partition(":")
            if not head.strip():
                continue
            crate = head.split()[0]
            if not layers:
                faults.append(f"crates.txt: {crate} is under no heading")
                layers.append(("", []))
            layers[-1][1].append(crate)
            names[crate] = rest.split()
    return layers, names, faults


def shown():
    """The layers of crates/README.md with their crates."""
    layers = []
    with open(os.path.join(TOP, "crates", "README.md"), encoding="utf-8") as it:
        for line in it:
            row = ROW.match(line)
            if line.startswith("## "):
                layers.append((line[3:].strip(), []))
            elif row and layers:
                layers[-1][1].append(row.group(1))
    return layers


def main():
    layers, names, faults = listed()
    above = set()
    for layer, crates in layers:
        for crate in crates:
            for below in names[crate]:
                if below in names and below not in above:
                    faults.append(f"crates.txt: {crate} ({layer}) names {below}, which does not stand above it")
            above.add(crate)
    page = shown()
    if [layer for layer, _ in page] != [layer for layer, _ in layers]:
        faults.append(f"crates/README.md has the layers {[layer for layer, _ in page]}, and crates.txt {[layer for layer, _ in layers]}")
    for (layer, crates), (_, rows) in zip(layers, page):
        if crates != rows:
            odd = [crate for crate in crates if crate not in rows] + [row for row in rows if row not in crates]
            faults.append(f"{layer}: crates.txt and crates/README.md differ" + (f" in {' '.join(odd)}" if odd else " in their order"))
    for fault in faults:
        print(fault)
    print(f"layers: {len(layers)}, crates: {len(above)}, {len(faults)} faults")
    sys.exit(1 if faults else 0)


main()
