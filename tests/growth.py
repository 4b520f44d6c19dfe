#!/usr/bin/env python3
"""Tests of calls that are refused memory: at each of their allocations in turn.

    tests/growth.py [CRATE..]

A test crate's program is what the gate leaves in crates/CRATE/out (by hand: `rt test` in the crate's folder). Each test of its module
`memory` is run once for each of its allocations after its mark, an allocation of 424,243 bytes, or for all where it has none, and this
allocation is refused. The test passes each time: a call that is refused memory says so, and the same call made again answers as if the
refused one had not been made. `cc` makes the library that refuses (tests/refuse_each.c). The last line is 'N passed, M failed'.
"""
import concurrent.futures
import os
import pathlib
import re
import resource
import subprocess
import sys
import tempfile

ROOT = pathlib.Path(__file__).resolve().parent.parent
CRATES = ("jv_tests", "jq_tests", "jq_pages_tests")
MARK = 424_243
SECONDS = 60


class Refusing:
    """A way to run a test once for each allocation."""

    def __init__(self, folder):
        self.library = str(pathlib.Path(folder, "refuse_each.so"))
        source = ROOT / "tests" / "refuse_each.c"
        subprocess.run(["cc", "-O1", "-shared", "-fPIC", "-o", self.library, source], check=True)

    def told(self, program, test, mark):
        """What the library tells of a test whose mark is an allocation of so many bytes, and the test's standard error."""
        with tempfile.TemporaryFile() as told, tempfile.TemporaryFile() as errors:
            env = {**os.environ, "LD_PRELOAD": self.library, "MARKED": str(mark), "TOLD": str(told.fileno()), "SECONDS": str(SECONDS)}
            streams = {"stdin": subprocess.DEVNULL, "stdout": subprocess.DEVNULL, "stderr": errors, "pass_fds": [told.fileno()]}
            subprocess.run([program, test], env=env, **streams)
            told.seek(0)
            errors.seek(0)
            return told.read().decode(), errors.read().decode(errors="replace")

    def fault_of(self, program, test):
        """What was wrong, and how many allocations were refused."""
        told, errors = self.told(program, test, MARK)
        if not told:
            told, errors = self.told(program, test, 0)
        if refused := re.fullmatch(r"refused ([1-9][0-9]*)\n", told):
            return None, int(refused[1])
        return f"{told.strip() or 'no allocation was refused'}: {errors.strip()}", 0


def tests_of(program):
    """The names of a program's tests of refused memory."""
    listed = subprocess.run([program, "--list"], capture_output=True, text=True, check=True).stdout
    return [name for name in re.findall(r"^(\S+): test$", listed, re.MULTILINE) if "memory::" in name]


def main():
    resource.setrlimit(resource.RLIMIT_CORE, (0, 0))
    passed = failed = calls = 0
    with tempfile.TemporaryDirectory() as folder, concurrent.futures.ThreadPoolExecutor(os.cpu_count()) as pool:
        refusing, running = Refusing(folder), []
        for crate in sys.argv[1:] or CRATES:
            program = ROOT / "crates" / crate / "out" / f"{crate}_tests"
            names = tests_of(program) if program.is_file() else []
            if not names:
                failed += 1
                print(f"FAILED growth.py: {crate}: no tests of refused memory in {program}", flush=True)
            running += [(f"{crate}: {name}", pool.submit(refusing.fault_of, program, name)) for name in names]
        for name, run in running:
            fault, refused = run.result()
            passed, failed, calls = passed + (not fault), failed + bool(fault), calls + refused
            if fault:
                print(f"FAILED growth.py: {name}\n    {fault}", flush=True)
    print(f"tests of calls that are refused memory ({calls} allocations): {passed} passed, {failed} failed", flush=True)
    sys.exit(1 if failed else 0)


if __name__ == "__main__":
    main()
