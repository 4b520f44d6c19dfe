#!/usr/bin/env python3
"""Measures jql side by side with an installed jq and gojq, and prints ratios.

Each row runs the programs in turn on the same generated input, several times, and takes the least processor time of each
(user and system). The peak memory is that of one more run under GNU time, where it is installed. jq gets `-S` too, since
jql always sorts keys, as gojq does. Where a program does not print the bytes that jql prints, the row says so; numbers are
not whole there, and some functions differ. Only the ratio of one run on one machine says something; nothing here is a
test. Of jq and gojq those are left out that are not installed.
"""
import argparse
import contextlib
import dataclasses
import fcntl
import hashlib
import multiprocessing
import os
import pathlib
import random
import re
import shutil
import subprocess
import sys
import tempfile
import threading

ROOT = pathlib.Path(__file__).resolve().parent.parent
MEGABYTE = 1_000_000
LONGEST_TEXT = 67_108_864
# A run that takes longer than this (seconds) is given up.
LIMIT = 120
# jql bounds the depth of calls, jq and gojq do not.
DEPTH = ["--depth", "100000"]
# A command whose first run takes longer than this (seconds) is not run again.
SLOW = 20
# GNU time is a small process. Without it a peak below the size of this process (21 MB) is told as that size.
TIME = shutil.which("time")


def definitions(tokens):
    """A filter of about so many tokens: functions that call the first one."""
    count = tokens // 5
    return "def f0: 1; " + " ".join(f"def f{at}: f0;" for at in range(1, count)) + " f0"


# Each row: its name, the words after the program's name, the input that it reads (none: null input), and the greatest
# number of bytes that one read gives (none: the input is a file, and a read gives all that it asks for).
ROWS = [
    # Reading and printing
    ("-c . over JSON lines", ["-c", "."], "lines", None),
    (". over JSON lines (pretty)", ["."], "lines", None),
    ("-c . over one large array", ["-c", "."], "array", None),
    (". over one large array (pretty)", ["."], "array", None),
    ("-c . over the same array in pieces of 4 KB", ["-c", "."], "array", 4096),
    ("-c . over one string of 64 MB", ["-c", "."], "string", None),
    ("-c . over the same string in pieces of 4 KB", ["-c", "."], "string", 4096),
    ("-c . over a million short texts", ["-c", "."], "ones", None),
    ("empty over JSON lines (reading alone)", ["empty"], "lines", None),
    ("-c . on a tiny input", ["-c", "."], "tiny", None),
    ("compiling a filter of 816 tokens", ["-n", definitions(818)], None, None),
    ("compiling a filter of 8,191 tokens", ["-n", definitions(8190)], None, None),
    # Picking from lines
    ("-c .user.name over JSON lines", ["-c", ".user.name"], "lines", None),
    ("-c select over JSON lines", ["-c", "select(.ok and .user.age > 50) | {id, name: .user.name}"], "lines", None),
    ("-r @csv over JSON lines", ["-r", "[.id, .user.name, .ok, .user.mail] | @csv"], "lines", None),
    (
        "-r strings over JSON lines",
        ["-r", '"\\(.user.name | ascii_upcase | split(" ") | join("-")) <\\(.tags | join(", "))>"'],
        "lines",
        None,
    ),
    # All inputs
    ("-n reduce inputs, a million numbers", ["-n", "reduce inputs as $x (0; . + $x)"], "ones", None),
    ("-n reduce inputs, JSON lines", ["-n", "reduce inputs as $l (0; . + $l.user.age)"], "lines", None),
    ("-s group_by", ["-s", "-c", "group_by(.user.age) | map([.[0].user.age, length])"], "some", None),
    ("-s sort_by", ["-s", "-c", "sort_by(.user.name) | map(.id) | .[0:3]"], "some", None),
    ("-s unique_by and min_by", ["-s", "-c", "[unique_by(.tags) | length], min_by(.sizes).id"], "some", None),
    ("map and add over one large array", ["-c", "map(.user.age) | add"], "array", None),
    ("-s map and add, a million numbers", ["-s", "map(. + 1) | add"], "ones", None),
    # Paths and updates
    ("all values by .. of a document", ["-c", "[..] | length"], "document", None),
    ("all paths of a document", ["-c", "[paths] | length"], "document", None),
    ("leaf_paths of a document", ["-c", "[leaf_paths | length] | add"], "document", None),
    ("update of all numbers of a document", ["-c", "(.. | select(type == \"number\")) |= . + 1"], "document", None),
    ("-c .sizes[] |= over JSON lines", ["-c", ".sizes[] |= . + 1"], "some", None),
    ("-c .user.age += 1 over JSON lines", ["-c", ".user.age += 1"], "lines", None),
    ("-c del over JSON lines", ["-c", "del(.tags[0], .user.mail)"], "some", None),
    ("-c with_entries over JSON lines", ["-c", ".user |= with_entries(.value |= tostring)"], "some", None),
    ("-c to_entries over JSON lines", ["-c", "to_entries | map(.key) | sort"], "some", None),
    ("-c walk over JSON lines", ["-c", 'walk(if type == "string" then length else . end)'], "some", None),
    (".[] |= over 20,000 items", ["-n", "-c", "[range(20000)] | .[] |= . + 1 | length"], None, None),
    (".[] |= of two outputs over 20,000 items", ["-nc", "[range(20000)] | .[] |= (. + 1, 1) | length"], None, None),
    ("20,000 items set one by one", ["-n", "reduce range(20000) as $i ([range(20000)]; .[$i] = true) | length"], None, None),
    ("8,000 items updated one by one", ["-n", "reduce range(8000) as $i ([range(8000)]; .[$i] += 1) | length"], None, None),
    # Loops, calls and values
    ("range(10000000) | empty", ["-n", "range(10000000) | empty"], None, None),
    ("reduce of ten million numbers", ["-n", "reduce range(10000000) as $i (0; . + $i)"], None, None),
    ("last of ten million numbers", ["-n", "last(range(10000000))"], None, None),
    ("map and add of a million numbers", ["-n", "[range(1000000)] | map(. + 1) | add"], None, None),
    ("reduce that builds an array of 100,000", ["-n", "reduce range(100000) as $i ([]; . + [$i]) | length"], None, None),
    (
        "reduce that builds an object of 100,000",
        ["-n", "reduce range(100000) as $i ({}; .[$i | tostring] = $i) | length"],
        None,
        None,
    ),
    ("$x[$i] in a loop", ["-n", "[range(500000)] as $x | reduce range(500000) as $i (0; . + $x[$i])"], None, None),
    ("recursion: fib of 24", ["-n", "def fib: if . < 2 then . else (. - 1 | fib) + (. - 2 | fib) end; 24 | fib"], None, None),
    ("recursion: 2,000,000 calls in tail position", ["-n", "def f: if . > 0 then . - 1 | f else . end; range(200) | 9990 | f"], None, None),
    ("recursion: 99,000 calls in tail position, each in the one before", ["-n", "def f: if . > 0 then . - 1 | f else . end; 99000 | f"], None, None),
    ("first and limit of a million generators", ["-n", "[range(300000) | first(range(.; . + 5)), limit(2; range(.; . + 5))] | length"], None, None),
    ("sort of 500,000 numbers", ["-n", "[range(500000) | . * 7919 % 500009] | sort | .[0]"], None, None),
    ("strings: explode and implode", ["-n", '"abc" * 300000 | explode | map(. + 1) | implode | length'], None, None),
    ("strings: split and join", ["-n", '[range(100000) | tostring] | join(",") | split(",") | length'], None, None),
    ("tojson and fromjson", ["-c", "tojson | fromjson | length"], "document", None),
]


def record(rng, number):
    """One JSON line, as a log would hold it."""
    words = "alpha bravo caf\u00e9 delta echo fox\\ttrot golf hotel \\u0041ndia juliet".split()
    name = " ".join(rng.choices(words, k=3))
    tags = ",".join(f'"{word}"' for word in rng.choices(words, k=4))
    return (
        f'{{"id":{number},"time":{1_700_000_000 + number * 7},"ok":{rng.choice(["true", "false"])},'
        f'"user":{{"name":"{name}","age":{rng.randrange(100)},"mail":null}},'
        f'"tags":[{tags}],"sizes":[{",".join(str(rng.randrange(-10**6, 10**6)) for _ in range(8))}]}}'
    )


SOME_LINES = 100_000
DOCUMENT_LINES = 4_000


def document(rng, lines):
    """One text of about a megabyte: lines in groups, some levels deep."""
    chosen = lines[:DOCUMENT_LINES]
    groups = [chosen[at : at + 20] for at in range(0, len(chosen), 20)]
    members = [f'"g{number}":{{"n":{rng.randrange(1000)},"items":[{",".join(group)}]}}' for number, group in enumerate(groups)]
    return "{" + ",".join(members) + "}\n"


def write_inputs(folder, size):
    """The generated inputs, the same in each run."""
    rng = random.Random(7)
    lines = []
    length = number = 0
    while length < size:
        lines.append(record(rng, number))
        length += len(lines[-1].encode()) + 1
        number += 1
    texts = {
        "lines": "\n".join(lines) + "\n",
        "some": "\n".join(lines[: SOME_LINES]) + "\n",
        "document": document(rng, lines),
        "array": "[" + ",".join(lines) + "]\n",
        "string": '"' + "a" * (LONGEST_TEXT - 2) + '"',
        "ones": "1\n" * 1_000_000,
        "tiny": '{"a":1}\n',
    }
    for name, text in texts.items():
        pathlib.Path(folder, name).write_text(text, encoding="utf-8")


def feed(path, given, taken):
    """Writes a file into a pipe, up to its end or until nobody reads on."""
    os.close(given)
    with contextlib.suppress(BrokenPipeError), open(path, "rb") as source, open(taken, "wb") as sink:
        shutil.copyfileobj(source, sink)


def open_in_pieces(path, piece):
    """What a program reads a file from, so that each read gives at most a piece, and the process that feeds it."""
    if piece is None:
        return open(path, "rb"), None
    given, taken = os.pipe()
    fcntl.fcntl(taken, fcntl.F_SETPIPE_SZ, piece)
    feeder = multiprocessing.Process(target=feed, args=(path, given, taken))
    feeder.start()
    os.close(taken)
    return open(given, "rb"), feeder


@dataclasses.dataclass
class Measured:
    """Processor seconds, peak memory (MB), and a sum of what was printed; seconds are None where a run was given up."""

    seconds: float | None
    memory: float
    printed: str


def run_once(command, path, piece):
    """What one run took."""
    source, feeder = open_in_pieces(path, piece)
    with source, tempfile.TemporaryFile() as sink:
        process = subprocess.Popen(command, stdin=source, stdout=sink, stderr=subprocess.DEVNULL)
        source.close()
        killer = threading.Timer(LIMIT, process.kill)
        killer.start()
        _, status, used = os.wait4(process.pid, 0)
        killer.cancel()
        process.returncode = 0
        if feeder:
            feeder.join()
        sink.seek(0)
        printed = hashlib.file_digest(sink, "sha256").hexdigest()
    seconds = None if os.WIFSIGNALED(status) else used.ru_utime + used.ru_stime
    return Measured(seconds, used.ru_maxrss / 1000, printed)


def peak_memory(command, path, piece):
    """The peak memory (MB) of one more run, as GNU time tells it."""
    with tempfile.NamedTemporaryFile("r") as told:
        run_once([TIME, "-f", "%M", "-o", told.name, *command], path, piece)
        return int(told.read().split()[-1]) / 1000


def measure(command, path, piece, times):
    """The least processor seconds and the peak memory of some runs."""
    runs = [run_once(command, path, piece)]
    while len(runs) < times and runs[0].seconds is not None and runs[0].seconds < SLOW:
        runs.append(run_once(command, path, piece))
    seconds = None if runs[0].seconds is None else min(run.seconds for run in runs)
    if TIME and seconds is not None and seconds < SLOW:
        memory = peak_memory(command, path, piece)
    else:
        memory = max(run.memory for run in runs)
    return Measured(seconds, memory, runs[-1].printed)


def told(name, taken):
    if taken.seconds is None:
        return f"{name} over {LIMIT} s, {taken.memory:.0f} MB"
    return f"{name} {taken.seconds:.3f} s, {taken.memory:.0f} MB"


def report(name, ours, others):
    """Prints a row, with the ratio to each other program."""
    line = f"{name}: {told('jql', ours)}"
    for other, theirs in others.items():
        line += f"; {told(other, theirs)}"
        if ours.seconds and theirs.seconds:
            line += f" ({theirs.seconds / ours.seconds:.1f} times ours)"
    print(line, flush=True)
    for other, theirs in others.items():
        if ours.seconds is not None and theirs.seconds is not None and ours.printed != theirs.printed:
            print(f"    jql and {other} printed different bytes", flush=True)


def run_row(program, others, folder, row, times):
    name, words, source, piece = row
    path = pathlib.Path(folder, source) if source else pathlib.Path(os.devnull)
    ours = measure([program, *DEPTH, *words], path, piece, times)
    report(name, ours, {other: measure([*command, *words], path, piece, times) for other, command in others.items()})


def installed(given):
    """The commands of the other programs that are there, told with their versions."""
    found = {}
    for name, command, words in (("jq", given.jq, ["-S"]), ("gojq", given.gojq, [])):
        if command and not shutil.which(command):
            sys.exit(f"no program at {command}: name another, or leave --{name} out")
        if command:
            version = subprocess.run([command, "--version"], capture_output=True, text=True).stdout.strip()
            print(f"{version} at {command}")
            found[name] = [command, *words]
        else:
            print(f"no {name} is installed")
    return found


def main():
    options = argparse.ArgumentParser(description=__doc__.splitlines()[0])
    options.add_argument("--program", default=str(ROOT / "jql"))
    options.add_argument("--jq", default=shutil.which("jq"), help="the jq to compare with")
    options.add_argument("--gojq", default=shutil.which("gojq"), help="the gojq to compare with")
    options.add_argument("--megabytes", type=int, default=50, help="the size of the large inputs")
    options.add_argument("--times", type=int, default=3)
    options.add_argument("--rows", default="", help="a pattern: only the rows whose name it finds")
    given = options.parse_args()
    program = str(pathlib.Path(given.program).resolve())
    if not os.access(program, os.X_OK):
        sys.exit(f"no program at {program}: run make first")
    others = installed(given)
    with tempfile.TemporaryDirectory() as folder:
        # In a process of its own, so that this one stays small.
        writer = multiprocessing.Process(target=write_inputs, args=(folder, given.megabytes * MEGABYTE))
        writer.start()
        writer.join()
        for row in ROWS:
            if re.search(given.rows, row[0]):
                run_row(program, others, folder, row, given.times)


if __name__ == "__main__":
    main()
