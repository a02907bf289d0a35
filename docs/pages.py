#!/usr/bin/env python3
"""Writes what pages have by script: causes and cures in docs/PROFILE.md, the man page docs/boshd.1, docs/BELIEVED.md, and
the lines of definitions in docs/HEADLINE.md.

The causes and cures are those that bin/bosh tells, the man page is made of docs/PROFILE.md, and docs/BELIEVED.md lists
the definitions that statements stand on. With --write the pages are written; docs/check.py says where they are
otherwise.
"""
import os
import re
import sys

from tree import TOP, files_of, lines_of, text_of

PROFILE, MANUAL, BELIEVED, HEADLINE = "docs/PROFILE.md", "docs/boshd.1", "docs/BELIEVED.md", "docs/HEADLINE.md"
USED = re.compile(r"use Rattle\.(\w+)\.specs\.([\w.]+?)(?:\.\{|$| as )")
CURES = "## Causes and cures"
PLACED = re.compile(r"`(\w+)` \(`(crates/[\w/]+\.\w+)`, line \d+\)")


def causes():
    """The refusals that bin/bosh explains: how each begins, its usual cause, and the cure."""
    table = text_of("bin/bosh").split("\nrefusals() {")[1].split("<<'END'\n")[1].split("\nEND\n")[0]
    return [line.split("|") for line in table.split("\n")]


def sections(page):
    """The sections of a page: the heading of each, and its lines."""
    found, heading = {}, ""
    for line in lines_of(page):
        if line.startswith("## "):
            heading = line
        found.setdefault(heading, []).append(line)
    return found


def table_of_causes():
    """The causes and cures as the rows of a table."""
    rows = ["| refusal | usual cause | cure |", "|---|---|---|"]
    for refusal, cause, cure in causes():
        told = f"task N error: .. {refusal[5:]}" if refusal.startswith("task ") else refusal
        rows.append(f"| `{told}` | {cause} | {cure} |")
    return rows


def profile():
    """The profile, with the table of causes as bin/bosh has it."""
    lines = []
    for heading, section in sections(PROFILE).items():
        if heading == CURES:
            before = [line for line in section if not line.startswith("|")]
            section = [*before[:-1], *table_of_causes(), ""]
        lines += section
    return "\n".join(lines)


def roff(text):
    """A text in the language of man pages, without links and marks of code."""
    text = re.sub(r"\[([^\]]*)\]\([^)]*\)", r"\1", text).replace("\\|", "|").replace("\\", "\\e").replace("-", "\\-")
    text = re.sub(r"`([^`]*)`", r"\\fB\1\\fR", text).replace("**", "")
    return "\\&" + text if text[:1] in (".", "'") else text


def body(section):
    """A section in the language of man pages: paragraphs, and of each row of a table its first cell and the others."""
    lines, rows = [], 0
    for number, line in enumerate(section[1:], 1):
        cells = [cell.strip() for cell in re.split(r"(?<!\\)\|", line)[1:-1]]
        is_head = line.startswith("|") and section[number + 1].startswith("|---")
        if line.startswith("|---") or is_head:
            continue
        if line.startswith("|"):
            lines += [".TP", roff(cells[0]), "; ".join(filter(None, map(roff, cells[1:]))) or "\\&"]
        elif line.startswith("    "):
            lines += [".EX", roff(line), ".EE"]
        elif line.startswith("### "):
            lines += [".SS", roff(line[4:])]
        elif line:
            lines += [".PP", roff(line)]
    return "\n".join(lines).replace(".EE\n.EX\n", "").split("\n")


def manual():
    """The man page: what the program is, and the sections of the profile that its user needs."""
    parts = sections(PROFILE)
    lines = [".\\\" Made of docs/PROFILE.md by docs/pages.py.", ".TH BOSHD 1", ".SH NAME"]
    lines += ["boshd, bosh \\- a deployment director over a simulated cloud", ".SH SYNOPSIS"]
    lines += [".B boshd", "[\\fB\\-\\-threads=\\fIN\\fR]", ".br", ".B bosh"]
    lines += ["[\\fB\\-d\\fR \\fIDEPLOYMENT\\fR] [\\fB\\-\\-dry\\-run\\fR] \\fICOMMAND\\fR [\\fIOPTION\\fR..]"]
    lines += [".SH DESCRIPTION", "\\fBboshd\\fR reads commands from its standard input, one a line."]
    lines += ["\\fBbosh\\fR is a wrapper that hands it one command; \\fBbosh \\-\\-help\\fR lists what it takes."]
    taken = {"How the program ends": "EXIT STATUS", "Input": "INPUT", "Commands": "COMMANDS", "Replies": "REPLIES"}
    taken |= {"Refusals": "REFUSALS", CURES[3:]: "CAUSES AND CURES", "Recipes": "RECIPES"}
    taken |= {"What surprises": "WHAT SURPRISES", "Limits": "LIMITS"}
    for heading, name in taken.items():
        lines += [f".SH {name}", *body(parts[f"## {heading}"])]
    lines += [".SH FILES", ".TP", "director.db, cloud.db", "what the director knows, and the simulated cloud, in the "]
    lines[-1] += "current folder; both belong together"
    return "\n".join(lines) + "\n"


def used_by(path):
    """What a file names of the definitions and of the types of this tree: the files of both."""
    for line in lines_of(path):
        for crate, place in USED.findall(line):
            words = place.split(".")
            if words[0] == "declared":
                file = f"crates/{crate}/src/{'/'.join(words[1:2])}.rt"
            else:
                file = f"crates/{crate}/specs/{'/'.join(words)}.antt"
            if lines_of(file):
                yield file


def closure(first):
    """The definitions and the modules of types that a file stands on, through all that these name."""
    found, left = set(), list(used_by(first))
    while left:
        path = left.pop()
        if path not in found:
            found.add(path)
            left += used_by(path) if path.endswith(".antt") else ()
    return found


def believed_rows(paths):
    """Files as rows of a table, one for each crate."""
    rows = ["| crate | files of `specs/` |", "|---|---|"]
    for crate in sorted({path.split("/")[1] for path in paths}):
        own = sorted(path for path in paths if path.split("/")[1] == crate)
        rows.append(f"| `{crate}` | {', '.join('`' + path.split('/specs/')[1] + '`' for path in own)} |")
    return rows


def count_lines(paths):
    """How many lines files have."""
    return sum(text_of(path).count("\n") for path in paths)


def believed():
    """What has to be read to know what the headline, and the contract of `run`, say."""
    lines = [
        "# What must be believed",
        "",
        "A proof is worth what its statement says. The prover checks proofs and code, but a definition means what it"
        " says and no more, and has to be read. This page lists, by script, the definitions that two statements stand"
        " on, with all that these name in turn. A file is taken whole, so it is somewhat more than the statements need;"
        " what `std` and the kit's libraries define is left out. [README.md](../README.md), \"What is trusted\", has"
        " what is believed"
        " of the tools and of the system. Lines are rounded.",
    ]
    safe, run = "crates/bosh_history/specs/Safe.antt", "crates/bosh_program/src/program.rt"
    statements = {
        "The headline": (f"`IsSafe` (`{safe}`) says it of a history.", closure(safe) | {safe}),
        "The contract of `run`": (f"It is proved of the program's top call (`{run}`).", closure(run)),
    }
    for heading, (said, paths) in statements.items():
        files = [path for path in paths if path.endswith(".antt")]
        told = f"{said} {len(files)} files of definitions with {round(count_lines(files), -2)} lines,"
        told += f" over the types of {len(paths) - len(files)} modules of code."
        lines += ["", f"## {heading}", "", told, "", *believed_rows(files)]
    lines += ["", "## How much there is", "", "| in all crates | thousand lines |", "|---|---|"]
    parts = {"code": "src/**/*.rt", "definitions": "specs/**/*.antt", "proofs": "proofs/**/*.antt"}
    for name, pattern in parts.items():
        lines.append(f"| {name} | {round(count_lines(files_of(f'crates/*/{pattern}')), -3) // 1000} |")
    return "\n".join(lines) + "\n"


def placed(match):
    """A name with the file that defines it, and the line there."""
    name, path = match.groups()
    begins = re.compile(rf"(?:pub |abbrev |record |data |enum |struct |fn )+{name}\b")
    line = next((number for number, line in enumerate(lines_of(path), 1) if begins.match(line)), 0)
    return f"`{name}` (`{path}`, line {line})"


def headline():
    """The page on the headline, with the lines of its definitions as they are."""
    return PLACED.sub(placed, text_of(HEADLINE))


def pages():
    """Each page that is written here, as it is to be."""
    return {PROFILE: profile(), MANUAL: manual(), BELIEVED: believed(), HEADLINE: headline()}


if __name__ == "__main__" and sys.argv[1:] == ["--write"]:
    for page in (PROFILE, MANUAL, BELIEVED, HEADLINE):
        made = pages()[page]
        with open(os.path.join(TOP, page), "w", encoding="utf-8") as file:
            file.write(made)
        lines_of.cache_clear()
