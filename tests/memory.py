#!/usr/bin/env python3
"""Tests of runs and sessions that are refused memory: at each of their allocations in turn.

    tests/memory.py PROGRAM

A run that is refused memory has written the beginning of its output; its last line is `jq: error: out of memory`, its status 2. Or it
does without: an update is run once beforehand to see whether a copy pays, and that run may fail. A session answers `refused 40` to an
edit that is refused memory, and is as before: the other lines alone have the same answers. `cc` makes the library that refuses
(tests/refuse.c). The last line is 'N passed, M failed'.
"""
import concurrent.futures
import os
import pathlib
import random
import subprocess
import sys
import tempfile

from program import SECONDS, run_tests
from random_scripts import Script, answers_of

HERE = pathlib.Path(__file__).resolve().parent
NO_MEMORY = b"jq: error: out of memory\n"
REFUSED = ("refused", 40, b"")


class Refusing:
    """A program of which each run can be refused one allocation."""

    def __init__(self, program, folder):
        self.program, self.library = program, str(pathlib.Path(folder, "refuse.so"))
        subprocess.run(["cc", "-O1", "-shared", "-fPIC", "-o", self.library, HERE / "refuse.c"], check=True)
        # what every command allocates before its filter runs
        self.start = self.allocations(["-n", "1"], b"")

    def run(self, words, stdin, refused=0, **more):
        """What a run writes whose allocation of this number is refused (none: 0), and its status."""
        env = {**os.environ, "LD_PRELOAD": self.library, "REFUSED": str(refused), **more.pop("env", {})}
        done = subprocess.run([self.program, *words], input=stdin, capture_output=True, timeout=SECONDS, env=env, **more)
        return done.stdout, done.stderr, done.returncode

    def allocations(self, words, stdin, **more):
        """How many allocations a run makes."""
        with tempfile.TemporaryFile() as told:
            self.run(words, stdin, env={"COUNTED": str(told.fileno())}, pass_fds=[told.fileno()], **more)
            told.seek(0)
            return int(told.read())

    def on_each(self, first, last, outcome_of):
        """What the runs come to that are refused an allocation from the first to the last."""
        with concurrent.futures.ThreadPoolExecutor(os.cpu_count()) as pool:
            return list(pool.map(outcome_of, range(first, last + 1)))


def with_refusals(test):
    """The test, on a program of which each run can be refused an allocation."""

    def run_test(program):
        with tempfile.TemporaryDirectory() as folder:
            return test(Refusing(program, folder))

    run_test.__name__ = test.__name__
    return run_test


# ---- runs

RUNS = [  # words, and an input
    (["-c", "., map_values(.)"], b'{"a":[1,"text",null],"b":{"c":"\\u00fc"}} [1e3] "a" 1 ]'),
    (["[.[] | tostring | ascii_downcase] | sort, unique, (group_by(length) | map(length))"], b'["B","a",[1],{"b":2}]'),
    (["-r", '@csv, @json, @html "<\\(.)>", @base64 "\\(.)", join("-")'], b'["B","a"]'),
    (["-n", "-c", "reduce inputs as {a: $x} ({}; .[$x] += 1), ([limit(2; repeat(1))] | add)"], b'{"a":"x"} {"a":"y"} {"a":"x"}'),
    (["-s", "-c", "map(.a) | .[] |= (., 1), (.[1:] |= map(. * 2)), to_entries, (del(.[0]) | tojson | fromjson)"], b'{"a":1} {"a":2}'),
    (["-c", "paths, (.. |= .), [getpath(paths)], (path(..) as [$p] | $p), walk(.), with_entries(.)"], b'{"a":[1,{"b":2}]}'),
    (["-n", "-c", "def f(g): if . < 9 then . + 1 | f(g) else g end; 1 | f(., [.]), (try error({a: .}) catch .)"], b""),
    (["-c", "label $out | foreach .[] as [$a, $b] (0; . + $a; ., $b, if . > 3 then break $out else empty end)"], b"[[1,2],[3,4],[5,6]]"),
    (["-c", ".[] as $x | try ($x | .a // error) catch [., $x], (.[] | strings, numbers, error?)"], b'[{"a":1},2,"x"]'),
    (["-c", '., if . == [3] then halt_error(7) else empty end'], b'"a" [3] ]'),
    (["-n", "[range(9000)], 1"], b""),
    (["--arg", "x", "text", "--argjson", "y", '{"a":[1]}', "-c", "[$x, $y], $x * 3, ($x | explode | implode), error"], b"1"),
]


def fault_of_run(refusing, words, stdin, first):
    """What was wrong in a run that was refused one of its allocations from the first on, or that most did without it."""
    want, errors, status = refusing.run(words, stdin)

    def is_refused(number):
        got, told, ended = refusing.run(words, stdin, number)
        if (got, told, ended) == (want, errors, status):
            return False
        if want.startswith(got) and told.endswith(NO_MEMORY) and errors.startswith(told[: -len(NO_MEMORY)]) and ended == 2:
            return True
        raise ValueError(f"{words}, allocation {number} refused: got {got!r}, {told!r}, {ended}; with it {want!r}, {errors!r}, {status}")

    outcomes = refusing.on_each(first, refusing.allocations(words, stdin), is_refused)
    return 2 * sum(outcomes) < len(outcomes) and f"{words}: {sum(outcomes)} of {len(outcomes)} runs were refused memory"


@with_refusals
def each_allocation_of_a_start(refusing):
    """Those of the words, of compiling and of one run, and of a filter that is refused."""
    return fault_of_run(refusing, *RUNS[0], 1) or fault_of_run(refusing, ["-n", ". as $x | $y"], b"", 1)


@with_refusals
def each_allocation_of_a_run(refusing):
    return next((fault for run in RUNS if (fault := fault_of_run(refusing, *run, refusing.start))), None)


# ---- sessions

SESSIONS = [["-c", "."], ["--follow", "-c", ".[]"], ["-s", "-c", "map(length) | add, ."], ["-n", "[inputs] | tojson"], ["-n", "reduce inputs as $x ({}; .[$x | type] += 1) | .[]"], ["., if . == [3] then halt_error(7) else empty end"]]
LINES = [
    b"append [1,2]", b"show", b'insert 0 {"a":"text"}', b"status", b'append "' + b"a" * 3000 + b'"', b"show", b"replace 1 [3]", b"errors",
    b"append [", b"remove 7", b"remove 0", b"show", b"insert 1 null", b"hello", b"replace 2 1", b"status", b"errors", b"show", b"remove 0", b"show",
]  # fmt: skip


def outcome_of_session(refusing, words, lines, number, folder=None):
    """How many edits were refused memory in a session that was refused an allocation, or None where it ended."""
    out, told, status = refusing.run(["--live", *words], b"\n".join(lines), number, cwd=folder)
    answers = answers_of(out, "--follow" in words)
    ended = (told, status) == (NO_MEMORY, 2)
    if not ended and ((told, status) != (b"", 0) or len(answers) != len(lines)):
        raise ValueError(f"{words}, allocation {number} refused: {len(answers)} answers, {told!r}, status {status}")
    kept = [(line, answer) for line, answer in zip(lines, answers) if answer != REFUSED]
    out, _, _ = refusing.run(["--live", *words], b"\n".join(line for line, _ in kept), cwd=folder)
    for (line, answer), want in zip(kept, answers_of(out, "--follow" in words)):
        if answer != want:
            raise ValueError(f"{words}, allocation {number} refused: to {line!r} the answer {answer}, without the refused edit {want}")
    return None if ended else len(answers) - len(kept)


@with_refusals
def each_allocation_of_a_session(refusing):
    for words in SESSIONS:
        last = refusing.allocations(["--live", *words], b"\n".join(LINES))
        outcomes = refusing.on_each(refusing.start, last, lambda number: outcome_of_session(refusing, words, LINES, number))
        if not outcomes.count(1):
            return f"{words}: no edit of {len(outcomes)} sessions was refused memory"
    return None


@with_refusals
def an_allocation_of_random_sessions(refusing):
    """500 scripts of random_scripts.py, each refused one of the allocations after its start."""

    def outcome_of(number):
        script = Script(random.Random(f"memory {number}"))
        lines = [line.encode() for line in script.lines]
        with tempfile.TemporaryDirectory() as folder:
            words = [*script.words, script.first_filter, *script.files_in(folder)]
            last = refusing.allocations(["--live", *words], b"\n".join(lines), cwd=folder)
            return outcome_of_session(refusing, words, lines, script.rng.randrange(refusing.start, last + 1), folder)

    outcomes = refusing.on_each(1, 500, outcome_of)
    return not outcomes.count(1) and f"no edit of {len(outcomes)} sessions was refused memory"


TESTS = [each_allocation_of_a_start, each_allocation_of_a_run, each_allocation_of_a_session, an_allocation_of_random_sessions]


def main():
    _, failed = run_tests("memory.py", "tests of refused memory", TESTS, str(pathlib.Path(sys.argv[1]).resolve()))
    sys.exit(1 if failed else 0)


if __name__ == "__main__":
    main()
