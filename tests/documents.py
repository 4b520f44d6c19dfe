#!/usr/bin/env python3
"""Tests that documents name what the program has, and what it has not.

    tests/documents.py PROGRAM

docs/FROM_JQ.md has each name of tests/jq_builtins.txt that the program does not know, and none that it knows; what its rows
say to write stands in a command of the page. docs/MANUAL.md says of each function whether it is written in jq, and the man
page lists the same functions. Each test is a function that answers what was wrong, nothing where all was well. The last line
is 'N passed, M failed'.
"""
import concurrent.futures
import os
import pathlib
import re
import subprocess
import sys

from program import SECONDS, run_tests

ROOT = pathlib.Path(__file__).resolve().parent.parent
FROM_JQ = (ROOT / "docs" / "FROM_JQ.md").read_text()
MANUAL = (ROOT / "docs" / "MANUAL.md").read_text()
FUNCTION = re.compile(r"([A-Za-z_][A-Za-z0-9_]*)/(\d)")


def names_of_jq():
    lines = (ROOT / "tests" / "jq_builtins.txt").read_text().splitlines()
    return [line for line in lines if line and not line.startswith("#")]


def calls(name):
    """A filter that has this name, but does nothing with it."""
    if function := FUNCTION.fullmatch(name):
        arguments = "; ".join(["."] * int(function[2]))
        return f"def f: {function[1]}{f'({arguments})' if arguments else ''}; 1"
    return {"import": 'import "a" as a; 1', "include": 'include "a"; 1', "module": "module {}; 1", "?//": ". as [$a] ?// $a | 1"}.get(name, f"def f: {name}; 1")


def is_known(program, name):
    """Whether the program takes a name: an option where the manual's table has it, and else where a filter with it is no fault
    of syntax or of a name."""
    if name.startswith("-"):
        return f"`{name}`" in MANUAL.split("| Option | Meaning |")[1].split("\n\n")[0].replace(" NAME TEXT", "").replace(" NAME JSON", "")
    done = subprocess.run([program, "-n", calls(name)], capture_output=True, text=True, timeout=SECONDS)
    return "is not defined" not in done.stderr and "syntax error" not in done.stderr


def known(program, names):
    with concurrent.futures.ThreadPoolExecutor(os.cpu_count()) as pool:
        return dict(zip(names, pool.map(lambda name: is_known(program, name), names)))


def codes(text):
    return re.findall(r"`([^`]+)`", text.replace("\\|", "|"))


def rows_of(text):
    """The cells of the rows of all tables in a text."""
    for line in text.splitlines():
        if line.startswith("| ") and not line.startswith("| |"):
            yield [cell.strip() for cell in re.split(r"(?<!\\)\|", line)[1:-1]]


def names_left_out(text):
    return [name for row in rows_of(text.split("## Names that jql does not have")[1]) for name in codes(row[1])]


def names_that_jql_does_not_have(program):
    """The page has them all, and no other."""
    listed, names = names_left_out(FROM_JQ), names_of_jq()
    kept = known(program, names)
    with_arguments = {name: [other for other in names if FUNCTION.fullmatch(other) and other.split("/")[0] == name] or [name] for name in listed}
    covered = {name for each in with_arguments.values() for name in each}
    missing = [name for name in names if not kept[name] and name not in covered]
    strange = [name for name in listed if any(kept.get(other, True) for other in with_arguments[name])]
    twice = {name for name in listed if listed.count(name) > 1}
    if missing or strange or twice:
        return f"not on docs/FROM_JQ.md: {missing}; known to jql or not in jq_builtins.txt: {strange}; twice: {sorted(twice)}"
    return None


def matches(code, commands):
    """Whether a command has this code, where `..` and a lone `f` of it stand for anything."""
    pattern = re.sub(r"\bf\b", ".+", re.escape(code).replace(re.escape(".."), ".*"))
    return code in commands or re.search(pattern, commands)


def rows_that_run(program):
    """What the right column of a row says to write stands in a command of the page."""
    blocks = "\n".join(re.findall(r"```console\n(.*?)```", FROM_JQ, re.DOTALL))
    commands = "\n".join(line[2:] for line in blocks.splitlines() if line.startswith(("$ ", "> ")))
    tables = FROM_JQ.split("## Names that jql does not have")[0]
    rows = [row for row in rows_of(re.sub(r"```.*?```", "", tables, flags=re.DOTALL)) if len(row) == 2 and row[0] != "In jq"]
    lost = [code for row in rows for code in codes(row[1]) if not matches(code, commands)]
    return (lost or len(rows) < 80) and f"{len(rows)} rows, and no command has {lost}"


def functions_written_in_jq(program):
    """The manual's table has the functions of the prelude as written in jq, and all others that the program has as not."""
    prelude = (ROOT / "crates/jq_tree/src/prelude.rt").read_text().split('r#"')[1].split('"#;')[0]
    heads = re.findall(r"^def ([A-Za-z_]\w*)(?:\(([^)]*)\))?:", prelude, re.MULTILINE)
    want = sorted(f"{name}/{len(given.split(';')) if given else 0}" for name, given in heads if not name.startswith("_"))
    table = dict(list(rows_of(MANUAL.split("### Which functions are written in jq")[1].split("###")[0]))[-2:])
    yes, no = (sorted(codes(table[word])) for word in ("yes", "no"))
    if yes != want:
        return f"the prelude has {sorted(set(want) - set(yes))} besides, the manual {sorted(set(yes) - set(want))}"
    described = {name for name, is_there in known(program, names_of_jq()).items() if is_there and FUNCTION.fullmatch(name)}
    here = known(program, no)
    others = sorted(described - set(want) - set(no))
    unknown = [name for name in no if not here[name]]
    return (others or unknown or set(yes) & set(no)) and f"not in the manual: {others}; not in jql: {unknown}"


def functions_of_the_man_page(program):
    """The man page lists the functions of the manual's table."""
    page = (ROOT / "docs" / "jql.1").read_text().split(".SH FUNCTIONS")[1].split(".PP")[0]
    words = " ".join(line for line in page.splitlines() if not line.startswith(".")).split()
    found = {f"{name}/{len(given.split(';')) if given else 0}" for name, given in (re.fullmatch(r"(\w+)(?:\((.*)\))?", word).groups() for word in words)}
    table = dict(list(rows_of(MANUAL.split("### Which functions are written in jq")[1].split("###")[0]))[-2:])
    want = {name for word in ("yes", "no") for name in codes(table[word])}
    return found != want and f"only in the man page: {sorted(found - want)}; only in the manual: {sorted(want - found)}"


def counted_calls(program):
    """At a depth of 1 a function that is written in jq has no call left for another one; others count nothing."""
    for filter_text, want in [("[1] | length, type, reverse, flatten(1)", 0), ("[1] | map(.)", 5), ("[1] | sort", 5), ("[1] | add", 0)]:
        done = subprocess.run([program, "--depth", "1", "-n", filter_text], capture_output=True, timeout=SECONDS)
        if done.returncode != want:
            return f"{filter_text}: status {done.returncode}"
    return None


TESTS = [names_that_jql_does_not_have, rows_that_run, functions_written_in_jq, functions_of_the_man_page, counted_calls]


def main():
    _, failed = run_tests("documents.py", "tests of documents", TESTS, str(pathlib.Path(sys.argv[1]).resolve()))
    sys.exit(1 if failed else 0)


if __name__ == "__main__":
    main()
