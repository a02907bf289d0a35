#!/usr/bin/env python3
"""Says whether what the pages tell of the tree is so.

It looks at what pages have by script, at the rows of docs/DEFINITIONS.md, at the files and names of docs/ARCHITECTURE.md, at the contracts that
docs/PROVED.md names, at numbers that can be counted, and at links, commands and names of crates. Each fault is printed,
and last how many checks were made. The status is 1 where there is a fault.

A check is whether something is so, the place where a page tells it, and the fault where it is not so.
"""
import os
import re
import sys
from collections import Counter

from pages import pages
from tree import crates, definitions_of, files_of, head_of, headings_of, is_there, items_of, lines_of, names_of
from tree import rows_of, text_of, times

NUMBERS = {word: number for number, word in enumerate("no one two three four five six seven eight nine ten".split())}
NUMBERS["twenty-five"] = 25

CODE = re.compile(r"`([^`]+)`")
SOURCE = re.compile(r" ?\((?:[^()]|\([^()]*\))*\)(?=\.|$)")
LOCATED = re.compile(r"((?:`[^`]+`(?:, | and )?)+) \(`([^`]+\.(?:rt|antt))`\)")
LINK = re.compile(r"\[[^\]]*\]\(([^)\s#]+)(?:#[^)]*)?\)((?:, (?:and )?\"[^\"]+\")*)")
PAGE = re.compile(r"`(docs/\w+\.md)` (\"[^\"]+\"(?:, \"[^\"]+\")*)")
COMMAND = re.compile(r"(?:`|^    )make ([a-z]+)")
CRATE = re.compile(r"`((?:bosh|cases|laws|examples|cpi)_[a-z_]+|boshd)`")
PATH = re.compile(r"`((?:docs|sessions|trials|bench|stops|kills|examples|crates|\.ci)/[\w./-]*)`")


def plain(sentence):
    """A text without the sources that stand in parentheses at the ends of its sentences, and without backquotes."""
    return " ".join(SOURCE.sub("", sentence.replace("`", "")).split())


def is_same_or_more(first, second):
    """Whether two texts are the same, or one goes on with further sentences where the other ends."""
    short, long = sorted((first, second), key=len)
    return long == short or (short.endswith(".") and long.startswith(short + " "))


def check_definitions():
    """Each file of specs/ has one row, the row says what heads the file, and the file has the definitions named."""
    page, listed = "docs/DEFINITIONS.md", set()
    for place, heading, cells in rows_of(page):
        file = re.fullmatch(r"`([\w/]+\.antt)`", cells[0])
        if not file:
            yield ".antt" not in cells[0], place, f"{cells[0]} is not one file"
            continue
        path = f"crates/{CODE.findall(heading)[0]}/specs/{file.group(1)}"
        yield is_there(path) and path not in listed, place, f"{path} is not there, or has a row above"
        listed.add(path)
        head = head_of(path)
        yield is_same_or_more(plain(head), plain(cells[1])), place, f"{path} begins: {head}"
        for name in CODE.findall(cells[2]):
            yield name in definitions_of(path), place, f"{path} does not define {name}"
    for path in files_of("crates/*/specs/**/*.antt"):
        yield path in listed or path.endswith("/Lib.antt"), page, f"{path} has no row"


def with_folders(cells):
    """The cells of a row with the whole path of each file: one without a path is of the crate that was named last."""
    crate = ""

    def whole(match):
        """The path of one file, of which the crate is remembered."""
        nonlocal crate
        if "/" in match.group(1):
            crate = match.group(1).split("/")[0]
            return f"`crates/{match.group(1)}`"
        folder = {"antt": "specs", "rt": "src", "cases": "data"}[match.group(2)]
        return f"`crates/{crate}/{folder}/{match.group(1)}`"

    return [re.sub(r"`([\w/.]+\.(rt|antt|cases))`", whole, cell) for cell in cells]


def check_places():
    """Each file in a table of docs/ARCHITECTURE.md is there, and has the names that stand before it."""
    page = "docs/ARCHITECTURE.md"
    first, last = (lines_of(page).index(line) for line in ("## Where a rule stands", "## Recipes"))
    for place, _, cells in rows_of(page):
        is_rule = first < int(place.split(":")[1]) < last
        for cell in with_folders(cells[1:] if is_rule else cells):
            rest = LOCATED.sub("", cell).replace(";", "").strip()
            yield not is_rule or rest in ("", "none", "the same"), place, f"without a file: {rest}"
            for path in re.findall(r"`(crates/[^`]+)`", cell):
                yield is_there(path), place, f"there is no {path}"
            for names, path in LOCATED.findall(cell):
                for name in CODE.findall(names):
                    yield name in names_of(path), place, f"{path} has no {name}"


def check_contracts():
    """Each contract that docs/PROVED.md names is one of the crates of its section, or stands for a crate of facts."""
    defined = set().union(*map(definitions_of, files_of("crates/*/specs/**/*.antt")))
    for place, heading, cells in rows_of("docs/PROVED.md"):
        files = [path for crate in CODE.findall(heading) for path in files_of(f"crates/{crate}/src/**/*.rt")]
        items = set().union(*map(items_of, files))
        items.update([item.split("::")[0] for item in items])
        contracts, cited = re.sub(r"\([^()]*\)", "", cells[-1]), " ".join(re.findall(r"\([^()]*\)", cells[-1]))
        for clause in re.findall(r"clause `(\w+)`", contracts):
            is_clause = any(f"ensures {clause} {{" in text_of(path) for path in files)
            yield is_clause, place, f"no contract has a clause {clause}"
        for name in CODE.findall(re.sub(r"clause `\w+`", "", contracts)):
            yield name in items | crates(), place, f"{name} is no contract of {heading.split(':')[0]}"
        for name in CODE.findall(cited):
            yield name in defined, place, f"{name} is no definition"


def passed():
    """How many cases of each call the programs of cases answer, by the counts that they are to print."""
    lines = "\n".join(map(text_of, files_of("crates/*/stdout")))
    return Counter({call: int(count) for call, count in re.findall(r"(\w+\.\w+): (\d+) passed, 0 failed", lines)})


def counted():
    """What pages say of numbers that can be counted: the page, the words around the number, and the number."""
    programs = len({path.split("/")[1] for path in files_of("crates/*/data/*.cases")})
    yield "README.md", r"tables of cases that (\S+) programs answer", programs
    yield "docs/TABLES.md", r"tables that (\S+) programs answer", programs
    proved, cases, tables = "docs/PROVED.md", passed(), "crates/*/data/*histories.cases"
    yield proved, r"(\d+) cases on goals of `cases_goals`", cases["goal.of"] + cases["goal.anew"]
    yield proved, r"`lines` of `cases_texts` tries (\d+) lines", cases["line.parse"]
    yield proved, r"`cases_texts` tries (\d+) examinations", cases["cck.examine"]
    yield proved, r"has (\d+) cases of calls, ", cases["book.run"]
    yield proved, r"cases of calls, (\d+) of them worked", times(tables, '"call": "book.run"')
    yield proved, r"of (\d+) wrong entries", times(tables, '"wrong": ')
    yield proved, r"from the program (\d+) are refused where", times(tables, "; refused")
    yield proved, r"has (\d+) cases on a site", cases["site.run"] + cases["site.stops"]
    yield proved, r"cases on a site: (\d+) lists of steps", cases["site.run"]
    yield proved, r"and (\d+) groups of tasks, which are stopped", cases["site.stops"]
    examples = "crates/examples_histories/src/*.rt"
    right = times(examples, "ensures right { IsPermittedFrom")
    yield proved, r"(\S+) worked histories are permitted", right
    yield proved, r"Of (\d+) versions of them", times(examples, r"ensures \w+_breaks { HasVerdict")
    yield proved, r"versions of them (\d+) are refused", times(examples, r"ensures \w+ { IsRefusedAt")
    yield proved, r"; (\S+) are permitted and break none", times(examples, r"ensures \w+ { IsPermittedFrom") - right


def check_numbers():
    """Each number is as it is counted, and docs/TABLES.md has just the calls that are counted."""
    for page, words, number in counted():
        told = (re.findall(words, text_of(page)) or ["nothing"])[0]
        yield str(NUMBERS.get(told.lower(), told)) == str(number), page, f"{words} tells {told}, and {number} are there"
    page, calls = "docs/TABLES.md", passed()
    for call in calls:
        yield f"`{call}`" in text_of(page), page, f"{call} is missing"
    for place, _, cells in rows_of(page):
        for call in re.findall(r"`(\w+\.\w+)`", cells[0]):
            yield call in calls, place, f"no table has a case of {call}"


def check_link(place, path, quoted):
    """A link leads to a file of the tree, and the headings that are named behind it stand there."""
    yield is_there(path), place, f"there is no {path}"
    for name in re.findall('"([^"]+)"', quoted):
        yield any(heading.startswith(name) for heading in headings_of(path)), place, f"{path} has no heading {name}"


def check_line(place, line, targets):
    """The links, headings, targets of the Makefile, crates and paths that a line of a page names are there."""
    for target, quoted in LINK.findall(line):
        if "://" not in target:
            yield from check_link(place, os.path.normpath(os.path.join(os.path.dirname(place), target)), quoted)
    for path, quoted in PAGE.findall(line):
        yield from check_link(place, path, quoted)
    for target in COMMAND.findall(line):
        yield target in targets, place, f"the Makefile has no {target}"
    for crate in CRATE.findall(line):
        yield crate in crates(), place, f"there is no crate {crate}"
    for path in PATH.findall(line):
        is_example = "/out/" in path or {"CRATE", "NAME", "FILE"} & set(path.split("/"))
        yield bool(is_example) or is_there(path), place, f"there is no {path}"


def check_pages():
    """What pages have by script is as it would be written now."""
    for page, text in pages().items():
        yield text == text_of(page), page, "is not as docs/pages.py --write makes it"


def check_references():
    """The head of the Makefile says what each target does; README.md leads to each page; what lines name is there."""
    targets = re.findall(r"^([a-z]+):", text_of("Makefile"), re.MULTILINE)
    head = " ".join(line for line in lines_of("Makefile") if line.startswith("#"))
    for target in targets:
        yield f" {target}: " in head, "Makefile", f"the head does not say what {target} does"
    for page in [*files_of("*.md"), *files_of("docs/*.md"), *files_of("crates/*.md")]:
        yield page == "README.md" or f"({page})" in text_of("README.md"), page, "README.md has no link to it"
        for number, line in enumerate(lines_of(page), 1):
            yield from check_line(f"{page}:{number}", line, targets)


def main():
    """Makes all checks, and prints the faults."""
    made, faults = 0, 0
    for check in (check_pages, check_definitions, check_places, check_contracts, check_numbers, check_references):
        for is_so, place, fault in check():
            made += 1
            if not is_so:
                faults += 1
                print(f"{place}: {fault}")
    print(f"docs: {made} checks, {faults} faults")
    sys.exit(1 if faults else 0)


if __name__ == "__main__":
    main()
