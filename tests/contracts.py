#!/usr/bin/env python3
"""Measures the contracts, and fails where a clause is longer than 200 characters or a function has more than eight clauses.

White space counts as one character, however long it is, and comments between clauses count for nothing. What belongs together in a longer clause gets a name in the crate's specs.
"""
import pathlib
import re
import sys

ROOT = pathlib.Path(__file__).resolve().parent.parent
LONGEST, MOST = 200, 8
COMMENT = re.compile(r"//[^\n]*")
CLAUSE = re.compile(r"^[ \t]*(?:ensures|requires)\b[^{\n]*\{", re.M)


def clauses(text):
    """Where each clause begins and ends."""
    for match in CLAUSE.finditer(text):
        depth, end = 1, match.end()
        while depth:
            depth += {"{": 1, "}": -1}.get(text[end], 0)
            end += 1
        yield match.start(), end


def faults_in(text):
    """The faults of a file, each with the number of its line."""
    count, last = 0, None
    for start, end in clauses(text):
        follows = last is not None and not COMMENT.sub("", text[last:start]).strip()
        count, last = count + 1 if follows else 1, end
        line = text.count("\n", 0, start) + 1
        length = len(" ".join(text[start:end].split()))
        if length > LONGEST:
            yield line, f"a clause of {length} characters"
        if count == MOST + 1:
            yield line, f"a function of more than {MOST} clauses"


def faults():
    files = sorted((ROOT / "crates").glob("*/src/**/*.rt"))
    assert files, "no sources"
    for file in files:
        for line, fault in faults_in(file.read_text()):
            yield f"{file.relative_to(ROOT)}:{line}: {fault}"


def main():
    long = f"    ensures {{ {'a' * LONGEST} }}\n"
    assert [line for line, _ in faults_in("fn f()\n" + long + "{\n")] == [2], "a long clause is not found"
    assert [line for line, _ in faults_in("fn f()\n" + "    ensures { a }\n" * (MOST + 1) + "{\n")] == [MOST + 2], "many clauses are not found"
    assert list(faults_in("fn f()\n" + "    ensures { a }\n    // why\n" * (MOST + 1) + "{\n")), "many clauses are not found between comments"
    assert list(faults_in("fn f()\n" + "    // why\n    ensures { a }\n" * MOST + "{\n")) == [], "a comment is a clause"
    found = list(faults())
    print("".join(f"{fault}\n" for fault in found), end="")
    print(f"lengths of contracts: {0 if found else 1} passed, {1 if found else 0} failed")
    sys.exit(1 if found else 0)


if __name__ == "__main__":
    main()
