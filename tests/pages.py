#!/usr/bin/env python3
"""Looks up each crate and each path that a page names, and fails where the tree does not have it.

A page is README.md, CONTRIBUTING.md or a file of docs/. What stands in backquotes there is looked up: a crate by its name, and
a path from the root, from crates/, docs/, tests/ or tools/, or in some crate. Blocks of code are passed over.
"""
import functools
import pathlib
import re
import sys

ROOT = pathlib.Path(__file__).resolve().parent.parent
PAGES = [ROOT / "README.md", ROOT / "CONTRIBUTING.md", *sorted((ROOT / "docs").glob("*.md"))]
CRATE = re.compile(r"\bj[qv]_\w+")
PATH = re.compile(r"[\w+-]+\.(?:antt|rt|toml|py|c|edit|md)|(?:[\w.+-]+/)+(?:[\w.+-]*[a-z_][\w.+-]*)?")
# What a build makes.
MADE = re.compile(r"(?:crates/\w+/)?out\b|dist\b|\./")


@functools.cache
def crates():
    lines = (ROOT / "crates.txt").read_text().splitlines()
    return [name for line in lines if (name := line.split("#")[0].partition(":")[0].strip())]


@functools.cache
def folders():
    """The folders that a path may be told from."""
    tops = [ROOT / "crates" / crate for crate in crates()]
    parts = [top / part for top in tops for part in ("src", "specs", "proofs", "must-fail")]
    return [*(ROOT / folder for folder in ("", "crates", "docs", "tests", "tools")), *tops, *(folder for part in parts for folder in part.glob("**/"))]


@functools.cache
def is_there(path):
    return any((folder / path).exists() for folder in folders())


def spans(page):
    """The texts in backquotes of a page, each with the number of its line."""
    inside = False
    for number, line in enumerate(page.read_text().splitlines(), 1):
        inside ^= line.startswith("```")
        for span in [] if inside else re.findall(r"`([^`]+)`", line):
            yield number, span


def faults():
    for page in filter(pathlib.Path.is_file, PAGES):
        for number, span in spans(page):
            for crate in CRATE.findall(span):
                if crate not in crates():
                    yield f"{page.name}:{number}: there is no crate {crate}"
            if PATH.fullmatch(span) and not MADE.match(span) and not is_there(span):
                yield f"{page.name}:{number}: there is no {span}"


def main():
    found = list(faults())
    print("".join(f"{fault}\n" for fault in found), end="")
    print(f"names in the pages: {0 if found else 1} passed, {1 if found else 0} failed")
    sys.exit(1 if found else 0)


if __name__ == "__main__":
    main()
