#!/usr/bin/env python3
"""Runs commands through the program, and compares what it writes, byte for byte.

They are the cases of tests/*.toml, the examples of the documents, and the scripts of examples/. With the gate, or where
no files are named, tests/documents.py, tests/program.py, tests/live.py, tests/memory.py, tests/hostile.py,
tests/release.py, tests/pages.py and tests/contracts.py follow. With the gate alone tests/growth.py runs the test crates that it built.

A file holds an array of tables [[case]]:

    name    what the case shows
    args    the words after the program's name (none: no words)
    stdin   what it reads from standard input, as text (none: nothing)
    stdout  what it must write to standard output (none: nothing)
    stderr  what it must write to standard error (none: nothing)
    status  the exit status that it must end with (none: 0)
    files   a table of files that lie where it runs, each NAME = "text"
    closed  the standard streams that are closed when it starts, of "stdin", "stdout" and "stderr"

For bytes that are no text, stdin_hex, stdout_hex and stderr_hex take the place of stdin, stdout and
stderr, and args_hex, a list, that of args. With stdin_path, stdout_path or stderr_path the stream is
what is at that path, as a folder to read from or the full device to write to; what is written there
is not compared. To add a case, add a table.

An example of a document (README.md, and of docs/ those that DOCUMENTS names) is in a block of the kind `console`. A line
that begins with `$ ` is a command for bash, and lines after it that begin with `> ` go on with it. What follows is what it
writes: first to standard output, then to standard error. A last line `# status N` is its exit status (none: 0). The
command `cat FILE` gives a file, whose text is what follows, to all examples of its document.

A folder of examples/ has a script `run.sh`, which calls `jql`, and `expected`, what the script writes to standard output.

The last line is 'N passed, M failed', and the status is 1 where anything failed.
"""
import argparse
import concurrent.futures
import contextlib
import os
import pathlib
import re
import subprocess
import sys
import tempfile
import time
import tomllib

ROOT = pathlib.Path(__file__).resolve().parent.parent
sys.path.insert(0, str(ROOT / "tools"))
import build  # noqa: E402

STREAMS = ("stdin", "stdout", "stderr")
KEYS = {"name", "args", "args_hex", "files", "status", "closed"} | {
    stream + suffix for stream in STREAMS for suffix in ("", "_hex", "_path")
}
SECONDS = 120
# Memory for a crate of the gate, in bytes.
LANE = 5_000_000_000
DOCUMENTS = ("README.md", "docs/MANUAL.md", "docs/SESSION.md", "docs/DIFFERENCES.md", "docs/FROM_JQ.md", "docs/LONG_RUNS.md")
PROGRAMS = ("documents.py", "program.py", "live.py", "memory.py", "hostile.py", "release.py", "pages.py", "contracts.py")


def stream_of(case, stream):
    """The bytes that a case gives for a stream."""
    if stream + "_hex" in case:
        return bytes.fromhex(case[stream + "_hex"])
    return case.get(stream, "").encode()


def cases_of(path):
    """The cases of a file, refused with a ValueError where there are none, or one has no name or an unknown key."""
    with open(path, "rb") as file:
        cases = tomllib.load(file).get("case", [])
    if not cases:
        raise ValueError("no cases")
    for number, case in enumerate(cases, 1):
        unknown = set(case) - KEYS
        if unknown or "name" not in case:
            raise ValueError(f"case {number}: no name, or unknown keys {sorted(unknown)}")
    return cases


def words_of(case):
    """The words that a case gives after the program's name."""
    return [bytes.fromhex(word) for word in case["args_hex"]] if "args_hex" in case else case.get("args", [])


def run_program(case, program, folder, stack):
    """Runs the program as a case says, and answers the process and the bytes that it wrote, none where they went to a path."""

    def handle(stream, mode):
        path = case.get(stream + "_path")
        return os.open(path, mode) if path else subprocess.PIPE

    def close():
        for stream in case.get("closed", []):
            os.close(STREAMS.index(stream))

    handles = [handle("stdin", os.O_RDONLY), handle("stdout", os.O_WRONLY), handle("stderr", os.O_WRONLY)]
    for opened in handles:
        if opened != subprocess.PIPE:
            stack.callback(os.close, opened)
    stdin, stdout, stderr = handles
    before = close if case.get("closed") else None
    process = subprocess.Popen(
        [program, *words_of(case)], stdin=stdin, stdout=stdout, stderr=stderr, cwd=folder, preexec_fn=before
    )
    stack.enter_context(process)
    stack.callback(process.kill)
    given = stream_of(case, "stdin") if stdin == subprocess.PIPE else None
    wrote, told = process.communicate(given, timeout=SECONDS)
    return process, wrote or b"", told or b""


def faults_of(case, program):
    """What the program did otherwise than the case wants."""
    with tempfile.TemporaryDirectory() as folder, contextlib.ExitStack() as stack:
        for name, text in case.get("files", {}).items():
            pathlib.Path(folder, name).write_text(text)
        try:
            process, wrote, told = run_program(case, program, folder, stack)
        except subprocess.TimeoutExpired:
            return [f"no end within {SECONDS} seconds"]
    pairs = [
        ("standard output", stream_of(case, "stdout"), wrote),
        ("standard error", stream_of(case, "stderr"), told),
        ("status", case.get("status", 0), process.returncode),
    ]
    return [f"{what}: wanted {want!r}, got {got!r}" for what, want, got in pairs if want != got]


def tell_failure(place, name, faults):
    print(f"FAILED {place}: {name}")
    print("".join(f"    {fault}\n" for fault in faults), end="", flush=True)


def run_all(place, named, faults_of_one):
    """How many of some named things passed and how many failed, several at a time."""
    failed = 0
    with concurrent.futures.ThreadPoolExecutor(os.cpu_count()) as pool:
        for (name, _), faults in zip(named, pool.map(lambda pair: faults_of_one(pair[1]), named)):
            if faults:
                failed += 1
                tell_failure(place, name, faults)
    return len(named) - failed, failed


def run_file(program, path):
    """How many cases of a file passed and how many failed; a file that can't be read is one that failed."""
    try:
        cases = cases_of(path)
    except (OSError, ValueError) as error:
        tell_failure(path.name, "the file", [error])
        return 0, 1
    return run_all(path.name, [(case["name"], case) for case in cases], lambda case: faults_of(case, program))


def tell_sum(what, counts):
    """The sum of counts of what passed and what failed, told; nothing at all is a failure."""
    passed, failed = (sum(column) for column in zip(*counts)) if counts else (0, 1)
    print(f"{what}: {passed} passed, {failed} failed", flush=True)
    return passed, failed


# ---- examples


def examples_of(path):
    """The examples of a document as triples of a place, a command and the lines after it, and the document's files."""
    examples, files, inside = [], {}, False
    for number, line in enumerate(path.read_text().splitlines(), 1):
        if line.startswith("```"):
            inside = line == "```console"
        elif inside and line.startswith("$ "):
            examples.append((f"{path.name}:{number}", line[2:], []))
        elif inside and line.startswith("> ") and examples and not examples[-1][2]:
            place, command, after = examples[-1]
            examples[-1] = (place, command + "\n" + line[2:], after)
        elif inside and examples:
            examples[-1][2].append(line)
    for place, command, after in examples:
        if shown := re.fullmatch(r"cat (\S+)", command):
            files.setdefault(shown[1], "".join(line + "\n" for line in after))
    return examples, files


def run_bash(command, program, files):
    """The process of a command, run by bash in a folder with the files, where `jql` is the program."""
    with tempfile.TemporaryDirectory() as folder, tempfile.TemporaryDirectory() as tools:
        for name, text in files.items():
            pathlib.Path(folder, name).write_text(text)
        for place in (folder, tools):
            os.symlink(program, pathlib.Path(place, "jql"))
        surroundings = {**os.environ, "PATH": tools + os.pathsep + os.environ["PATH"], "LC_ALL": "C.UTF-8"}
        return subprocess.run(["bash", "-c", command], cwd=folder, env=surroundings, capture_output=True, timeout=SECONDS)


def faults_of_example(example, files, program):
    """What an example writes otherwise than its document shows."""
    _, command, after = example
    status = 0
    if after and (told := re.fullmatch(r"# status (\d+)", after[-1])):
        status, after = int(told[1]), after[:-1]
    want = "".join(line + "\n" for line in after).encode()
    try:
        ran = run_bash(command, program, files)
    except subprocess.TimeoutExpired:
        return [f"no end within {SECONDS} seconds"]
    got = ran.stdout if not ran.stdout or ran.stdout.endswith(b"\n") else ran.stdout + b"\n"
    pairs = [("output", want, got + ran.stderr), ("status", status, ran.returncode)]
    return [f"{what}: wanted {want!r}, got {got!r}" for what, want, got in pairs if want != got]


def run_document(program, name):
    examples, files = examples_of(ROOT / name)
    named = [(f"{place}: {command}", (place, command, after)) for place, command, after in examples]
    return run_all("an example", named, lambda example: faults_of_example(example, files, program))


def faults_of_script(folder, program):
    """What the script of a folder of examples/ writes otherwise than it should."""
    ran = run_bash(f"cd {folder} && ./run.sh", program, {})
    pairs = [
        ("standard output", (folder / "expected").read_bytes(), ran.stdout),
        ("standard error", b"", ran.stderr),
        ("status", 0, ran.returncode),
    ]
    return [f"{what}: wanted {want!r}, got {got!r}" for what, want, got in pairs if want != got]


def run_commands(program, files):
    """How many cases of files passed and how many failed."""
    return tell_sum("commands of tests/", [run_file(program, path) for path in files])


def run_examples(program):
    """How many examples of the documents and of examples/ passed and how many failed, and the tests of PROGRAMS."""
    scripts = sorted(path.parent for path in (ROOT / "examples").glob("*/run.sh"))
    counts = [
        tell_sum("examples of the documents", [run_document(program, name) for name in DOCUMENTS]),
        tell_sum(
            "scripts of examples/",
            [run_all("examples/", [(folder.name, folder) for folder in scripts], lambda f: faults_of_script(f, program))],
        ),
        *(run_program_tests(name, program) for name in PROGRAMS),
    ]
    return tuple(sum(column) for column in zip(*counts))


def run_program_tests(name, *words):
    """What a program of tests/ counted, and one more failure where it failed without counting one."""
    ran = subprocess.run([sys.executable, str(ROOT / "tests" / name), *words], stdout=subprocess.PIPE, text=True)
    print(ran.stdout, end="", flush=True)
    counted = re.search(r"(\d+) passed, (\d+) failed\n\Z", ran.stdout)
    passed, failed = (int(n) for n in counted.groups()) if counted else (0, 0)
    return passed, failed or (1 if ran.returncode or not counted else 0)


def lanes():
    """How many crates `rt ci` proves side by side: RT_JOBS, else one a processor, and as many as memory holds.

    With RT_JOBS `rt ci` does not wait for the memory that it expects a check to take, which for several crates is more than it takes.
    """
    kit = build.load_kit()
    return os.environ.get("RT_JOBS") or str(max(1, min(kit.processors(), kit.free() // LANE)))


def run_gate():
    """What `rt ci` counted, and one more failure where it failed without counting one. Tells how long it took."""
    began, used = time.monotonic(), os.times()
    surroundings = {**os.environ, "RT_JOBS": lanes()}
    gate = subprocess.Popen(["rt", "ci"], cwd=ROOT, env=surroundings, stdout=subprocess.PIPE, stderr=subprocess.STDOUT)
    last = ""
    for line in gate.stdout:
        last = line.decode(errors="replace").strip() or last
        sys.stdout.buffer.write(line)
        sys.stdout.buffer.flush()
    status = gate.wait()
    now = os.times()
    processors = now.children_user + now.children_system - used.children_user - used.children_system
    print(f"rt ci: {(time.monotonic() - began) / 60:.0f} minutes, {processors / 60:.0f} processor minutes", flush=True)
    counted = re.fullmatch(r"(\d+) passed, (\d+) failed", last)
    passed, failed = (int(n) for n in counted.groups()) if counted else (0, 0)
    if failed == 0 and (status != 0 or not counted):
        failed = 1
    return passed, failed


def check_believed():
    """Whether the list of what must be believed is that of docs/BELIEVE.md, as one more test."""
    faults = subprocess.run([sys.executable, str(ROOT / "tests" / "believed.py"), "--check"], cwd=ROOT).returncode
    return (0, 1) if faults else (1, 0)


def compare_with_dist(program):
    """Whether the program that the gate built is the one in dist/ (if that is of the same sources), as one more test."""
    words = [sys.executable, str(ROOT / "tools" / "release.py"), "compare", program]
    return (0, 1) if subprocess.run(words, cwd=ROOT).returncode else (1, 0)


def main():
    options = argparse.ArgumentParser(description=__doc__.splitlines()[0])
    options.add_argument("--gate", action="store_true", help="first run `tests/believed.py --check`, `rt ci` and tests/growth.py, take the program that `rt ci` built, and compare it with dist/")
    options.add_argument("--program", default=str(ROOT / "jql"), help="the program to run (without --gate)")
    options.add_argument("files", nargs="*", type=pathlib.Path, help="files of cases (none: all of tests/)")
    given = options.parse_args()

    passed = failed = 0
    program = str(pathlib.Path(given.program).resolve())
    if given.gate:
        counts = [check_believed(), run_program_tests("edits.py", "--check"), run_gate(), run_program_tests("growth.py")]
        program = str(ROOT / "crates" / "jql" / "out" / "jql")
        if pathlib.Path(program).is_file():
            counts.append(compare_with_dist(program))
        passed, failed = (sum(column) for column in zip(*counts))
    if pathlib.Path(program).is_file():
        counts = [run_commands(program, given.files or sorted((ROOT / "tests").glob("*.toml")))]
        if not given.files:
            counts.append(run_examples(program))
        passed, failed = passed + sum(c[0] for c in counts), failed + sum(c[1] for c in counts)
    else:
        print(f"no program at {program}")
        failed += 1
    print(f"{passed} passed, {failed} failed")
    sys.exit(1 if failed else 0)


if __name__ == "__main__":
    main()
