#!/usr/bin/env python3
"""Measures what an edit of a session costs, by filter, number of inputs and place of the edit, and prints a table.

    bench/sessions.py [--program ./jql] [--inputs 1000,100000,1000000] [--only WORDS]

For each row a session starts over a file of inputs. An input at the front, in the middle and at the end is replaced up to 200
times, each time by another value (the first of the numbers by itself, since it stays the greatest). In a row of moves the input
there is moved in place of that: the first one to the end, and the others to the front. The edits at one place stop after two
seconds. A cell is the processor time of one edit in microseconds, its answer included: the kernel tells the time of the
process before and after the edits. `start` is the processor time up to the first answer, in milliseconds. `bytes` is the peak
memory for each input: that of the session, less that of a session without inputs and less the bytes of its output. Only ratios
of one run on one machine say something; nothing here is a test.
"""
import argparse
import pathlib
import subprocess
import sys
import tempfile
import time

ROOT = pathlib.Path(__file__).resolve().parent.parent
# The edits at one place, and after how many seconds no more are made.
EDITS, SECONDS = 200, 2.0
# Each row: its name, the words after the program's name, the kind of its inputs, and of its edits.
ROWS = [
    ("-c .", ["-c", "."], "records", "replace"),
    ("-c .", ["-c", "."], "records", "move"),
    ("-c .user.name", ["-c", ".user.name"], "records", "replace"),
    ("-n reduce inputs as $x (0; [., $x] | max)", ["-n", "reduce inputs as $x (0; [., $x] | max)"], "numbers", "replace"),
    ("-n reduce inputs as $x (0; . + $x)", ["-n", "reduce inputs as $x (0; . + $x)"], "numbers", "replace"),
    ("-n foreach inputs as $x (0; . + $x)", ["-n", "foreach inputs as $x (0; . + $x)"], "numbers", "replace"),
    ("-s add", ["-s", "add"], "numbers", "replace"),
]


def text_of(kind, number):
    """An input. The numbers are below a thousand, and so below the first input, which is the greatest."""
    return f"{number % 1000}" if kind == "numbers" else f'{{"id":{number},"user":{{"name":"user {number % 1000}"}}}}'


def write_inputs(path, kind, count):
    with open(path, "w") as file:
        for at in range(count):
            # The greatest number comes first, so that a maximum is the same from there on.
            print(999_999 if kind == "numbers" and at == 0 else text_of(kind, at), file=file)


class Session:
    """A running session, the processor time that it has taken, and its greatest memory."""

    def __init__(self, program, words, path):
        self.process = subprocess.Popen([program, "--live", *words, path], stdin=subprocess.PIPE, stdout=subprocess.PIPE)

    def ask(self, line):
        self.process.stdin.write(line.encode() + b"\n")
        self.process.stdin.flush()
        return self.process.stdout.readline()

    def seconds(self):
        """Its processor time. The kernel tells nanoseconds."""
        return int(pathlib.Path(f"/proc/{self.process.pid}/schedstat").read_text().split()[0]) / 1e9

    def peak(self):
        lines = pathlib.Path(f"/proc/{self.process.pid}/status").read_text().splitlines()
        return 1024 * int(next(line for line in lines if line.startswith("VmHWM:")).split()[1])

    def length(self):
        """The number of bytes of the output, which are read."""
        count = int(self.ask("show").split()[1])
        self.process.stdout.read(count)
        return count

    def end(self):
        self.process.stdin.close()
        self.process.stdout.close()
        self.process.wait()


def line_of(edit, kind, place, count, number):
    """The line of an edit at a place among so many inputs."""
    if edit == "move":
        return f"move {place} {count - 1 if place == 0 else 0}"
    # The first input of the numbers stays the greatest.
    return f"replace {place} {'999999' if kind == 'numbers' and place == 0 else text_of(kind, number)}"


def edit_cost(session, edit, kind, place, count):
    """Microseconds of processor time for one edit at a place."""
    before, began, made = session.seconds(), time.monotonic(), 0
    while made < EDITS and time.monotonic() - began < SECONDS:
        if not session.ask(line_of(edit, kind, place, count, made + 17)).startswith(b"ok "):
            sys.exit(f"an edit at place {place} was refused")
        made += 1
    return (session.seconds() - before) / made * 1e6


def begin(program, words, kind, count, folder):
    """A session over so many inputs that has given its first answer."""
    path = f"{folder}/{kind}-{count}"
    if not pathlib.Path(path).is_file():
        write_inputs(path, kind, count)
    session = Session(program, words, path)
    session.ask("status")
    return session


def measure(program, words, kind, edit, count, folder):
    empty = begin(program, words, kind, 0, folder)
    memory = -empty.peak()
    empty.end()
    session = begin(program, words, kind, count, folder)
    start = session.seconds()
    costs = [edit_cost(session, edit, kind, place, count) for place in (0, count // 2, count - 1)]
    memory += session.peak() - session.length()
    session.end()
    return costs, start, memory / count


def main():
    parser = argparse.ArgumentParser(description=__doc__, formatter_class=argparse.RawDescriptionHelpFormatter)
    parser.add_argument("--program", default=str(ROOT / "jql"))
    parser.add_argument("--inputs", default="1000,100000,1000000", help="the numbers of inputs")
    parser.add_argument("--only", default="", help="rows whose name has these words")
    options = parser.parse_args()
    print("| Filter | Inputs | front, µs | middle, µs | end, µs | start, ms | bytes |")
    print("|---|---|---|---|---|---|---|", flush=True)
    with tempfile.TemporaryDirectory(prefix="jql-sessions-") as folder:
        for name, words, kind, edit in ROWS:
            name = f"`{name}`" + ", moved" * (edit == "move")
            if options.only not in name:
                continue
            for count in map(int, options.inputs.split(",")):
                costs, start, memory = measure(options.program, words, kind, edit, count, folder)
                cells = [f"{cost:.0f}" for cost in costs] + [f"{start * 1000:.0f}", f"{memory:.0f}"]
                print(f"| {name} | {count:,} | " + " | ".join(cells) + " |", flush=True)


if __name__ == "__main__":
    main()
