"""What the tree has: files, crates, the rows of pages, and the names that files of definitions and of code define.

Paths are told from the top of the tree on.
"""
import functools
import glob
import os
import re

TOP = os.path.dirname(os.path.dirname(os.path.abspath(__file__)))
DEFINITION = re.compile(r"( {2})?(?:abbrev |unfoldable |pub |data |record )+([^\s{(:]+)")
BLOCK = re.compile(r"(?:pub(?:\(crate\))? |unsafe )*(?:impl|trait)\b(.*)")
ITEM = re.compile(r"\s*(?:pub(?:\(crate\))? |const |unsafe )*(?:fn|struct|enum|trait|type|const) (\w+)")


@functools.lru_cache(maxsize=None)
def lines_of(path):
    """The lines of a file, or none where there is no such file."""
    whole = os.path.join(TOP, path)
    if not os.path.isfile(whole):
        return ()
    with open(whole, encoding="utf-8") as file:
        return tuple(file.read().split("\n"))


def text_of(path):
    """The text of a file."""
    return "\n".join(lines_of(path))


def is_there(path):
    """Whether there is such a file or folder."""
    return os.path.exists(os.path.join(TOP, path))


@functools.lru_cache(maxsize=None)
def files_of(pattern):
    """The files and folders that a pattern takes, in order."""
    return sorted(os.path.relpath(path, TOP) for path in glob.glob(os.path.join(TOP, pattern), recursive=True))


@functools.lru_cache(maxsize=None)
def crates():
    """The crates."""
    return frozenset(path.split("/")[1] for path in files_of("crates/*/src"))


def rows_of(page):
    """The rows of a page's tables but for their heads: where each stands, the heading above it, and its cells."""
    heading, lines = "", lines_of(page)
    for number, line in enumerate(lines, 1):
        if line.startswith("#"):
            heading = line.lstrip("# ")
        is_head = number < len(lines) and lines[number].startswith("|---")
        if line.startswith("|") and not line.startswith("|---") and not is_head:
            yield f"{page}:{number}", heading, [cell.strip() for cell in re.split(r"(?<!\\)\|", line)[1:-1]]


def headings_of(page):
    """The headings of a page, without their numbers."""
    return [re.sub(r"^#+ (\d+\. )?", "", line) for line in lines_of(page) if line.startswith("#")]


def head_of(path):
    """The comment that heads a file of definitions, on one line."""
    lines = lines_of(path)
    length = next((number for number, line in enumerate(lines) if not line.startswith("--")), len(lines))
    return " ".join(line[2:].strip() for line in lines[:length])


@functools.lru_cache(maxsize=None)
def definitions_of(path):
    """The definitions of a file: at its margin, or one step inside of a `mutual` or `module`."""
    names, is_inside = set(), False
    for line in lines_of(path):
        if re.match(r"(abbrev )?(mutual|module)\b", line):
            is_inside = True
        elif line[:1].strip() and not line.startswith("--"):
            is_inside = False
        found = DEFINITION.match(line)
        if found and bool(found.group(1)) == is_inside:
            names.add(found.group(2))
    return names


@functools.lru_cache(maxsize=None)
def items_of(path):
    """The functions and types of a file of code, and `Type::function` for each type that heads the function's block."""
    names, owners = set(), []
    for line in lines_of(path):
        block, item = BLOCK.match(line), ITEM.match(line)
        if block:
            owners = re.findall(r"\w+", block.group(1))
        elif line.startswith("}"):
            owners = []
        if item:
            names.add(item.group(1))
            names.update(f"{owner}::{item.group(1)}" for owner in owners)
    return names


def names_of(path):
    """What a file of definitions or of code defines."""
    return definitions_of(path) if path.endswith(".antt") else items_of(path)


def times(pattern, expression):
    """How often an expression stands in the files that a pattern takes."""
    return sum(len(re.findall(expression, line)) for path in files_of(pattern) for line in lines_of(path))
