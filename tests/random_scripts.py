#!/usr/bin/env python3
"""Compares sessions (`jql --live`) with runs from scratch, on scripts that are put together at random from a seed.

    tests/random_scripts.py [--program ./jql] [--count 1000] [--seed 1]

A script has options, a filter, first inputs in files, edits, moves and other filters with and without faults, and at some
places `show`, `errors` and `status`. Each refusal has to be the one wanted, and what is shown has to be what
tests/reference.py writes in runs from scratch of the present filter on the present inputs, which are kept here. Half of the
scripts run with `--follow`: `show` and `errors` come first and after each edit, move and filter, and a client that applies
the splices of the answers has to have their bytes. The same seed gives the same scripts. The last line is 'N passed, M failed'.
"""
import argparse
import concurrent.futures
import functools
import os
import pathlib
import random
import re
import subprocess
import sys
import tempfile

import reference

HERE = pathlib.Path(__file__).resolve().parent
SECONDS = 120
UNKNOWN, NO_PLACE, BAD_TEXT = 0, 20, 21

# ---- what scripts are made of

ON_EACH = [
    ".", ".a", ".[]", ".[]?", ". + 1", ".[] | . * 2", "length, keys", "error", "try error catch .", ".a.b // empty", "tostring",
    'select(type == "number")', "., error(.)", "(.[]?, .) | strings", "if . then . else empty end", "ascii_upcase", "@csv",
    'def f: if . == "a" then f else type end; f', "[.. | numbers] | add", '"\\(.)\\n"', "empty", "tojson | fromjson", "sort_by(.a)",
    ".a |= . + 1", "first(.[])", "label $l | .[] | if . == null then break $l else . end", "$x + ., [$n]", "not", "null, false",
    '., if . == "a" then halt_error(3) else empty end', "if . == 2 then halt else .a end",
]  # fmt: skip
ON_NULL = [
    "[inputs]", "inputs", "inputs | .a", "first(inputs)", "1", ".", "reduce inputs as $v (0; . + $v)", "[inputs?] | length",
    "foreach inputs as $v (0; . + $v; .)", "foreach inputs as $v (null; $v; ., .[0])", "reduce inputs as [$v] (0; . + $v)",
    "reduce inputs as $v ({}; .[$v | type] += 1) | ., length", "try inputs catch 1", "[limit(3; inputs)]", "isempty(inputs)",
    "any(inputs; . == 1)", "reduce (inputs | numbers) as $v (0; [., $v] | max)", '[inputs] | map(tostring) | join(",")', "empty",
    "foreach inputs as {a: $v} (0; . + 1; $v, .) | select(.)", "inputs as $v | $v, error($v)", "label $l | inputs | ., break $l",
    "foreach inputs as $v (0; . + 1; ., if . == 3 then halt else empty end)", "inputs | if . == 1 then halt_error else .a end",
    "foreach inputs as $v (null; $v)", "foreach inputs as $v (0; . + 1; if . % 2 == 0 then error($v) else . end)", "first(foreach inputs as $v (0; . + 1))",
    "foreach inputs as [$v, $w] (0; . + 1; [., $v, $w])", "reduce inputs as [$v, $w] ([]; . + [$v, $w])", "foreach inputs as {(keys[]): $v} (0; . + $v; .)",
    "reduce inputs as {a: $v, b: [$w]} ({}; .[$v | tostring] += [$w]) | to_entries[]", "reduce inputs as $v ([]; [$v] + .) | .[]",
    "foreach inputs as $v (0; . + 1, . + 2; .)", "foreach inputs as $v (0; empty; .)", "reduce inputs as $v (0; . + 1) | ., error", '$x, reduce inputs as $v (.; $v)',
    "def f: if . > 3 then . else . + 1 | f end; foreach inputs as $v (0; . + 1 | f; .)", "def f: [f]; reduce inputs as $v (0; if . == 2 then f else . + 1 end)",
    "foreach inputs as $v (0; if $v == null then error(\"none\") else . + 1 end; [.]) | .[0] | ., -.", "[foreach inputs as $v (0; . + 1)] | add, length",
    "reduce (inputs, 7) as $v (null; [., $v] | max)", "foreach inputs as $v ({}; .[$v | type] += 1; length, .) | select(. != 1)",
    "reduce inputs as $v (0; . + 1) | if . == 3 then halt_error(9) else . end", "foreach inputs as $v (0; [., ($v | numbers)] | max; select(. > 2))",
]  # fmt: skip
ON_ALL = [
    ".", ".[]", "add", "length", "sort", "map(.a)", "group_by(type)", "map(. + 1)", ".[0], .[-1]", "reverse | .[]", "unique | length",
    'map(strings) | join("-")', ".[] | error", "empty", "min, max", "map(select(. > 2))", "to_entries", ".[1:] | .[] | numbers",
    "length, if length == 2 then halt_error(4) else empty end",
]  # fmt: skip
PLACES = [  # options, and the filters that run under them
    ([], ON_EACH), (["-c"], ON_EACH), (["-n"], ON_NULL), (["-n", "-c"], ON_NULL), (["-s"], ON_ALL), (["-s", "-c"], ON_ALL),
    (["-e"], ON_EACH), (["-r"], ON_EACH), (["-j"], ON_EACH), (["-n", "-e"], ON_NULL), (["-n", "-r"], ON_NULL), (["-n", "-j"], ON_NULL),
    (["-s", "-e"], ON_ALL), (["-s", "-j"], ON_ALL), (["-ejc"], ON_EACH),
]  # fmt: skip
ALWAYS = ["--arg", "x", "X", "--argjson", "n", "[0]"]
DEPTHS = ["1", "2", "3", "40", "40", "40"]

TEXTS = [
    "null", "false", "true", "0", "1", "2", "3", "-1", "1e2", "-0", "9223372036854775807", '"a"', '"b"', '""', '"ü\\n"', '"\\u0041 b"', "[]", "{}",
    "[1,2]", '["a"]', "[null,1]", '{"a":1}', '{"a":{"b":2}}', '{"b":[3],"a":null}', '{"a":1,"a":"x"}', "[[1],[2,[3]]]", " [ 1 , 2 ] ", "\t7\r",
]  # fmt: skip
BAD_FILTERS = [  # with the number of their refusal under all options
    ('"\\x"', 10), ("`", 10), ('. + "\\x" )', 10), (". *", 11), (")", 11), ("nothing, (", 11), ("." + " | ." * 5000, 12), ("(" * 257 + ")", 13),
    ("nothing", 14), ("$y", 14), ("break $a", 14), ("@nothing", 14), ("map(nothing; 1)", 14), ("$y, inputs, inputs", 14), ("inputs, inputs", 15), ("[.[] | inputs]", 15),
]  # fmt: skip
BAD_TEXTS = ["", " ", "[1", "1 2", "1,", "]", "{", '{"a"}', '"a', "nan", "tru", "1.5", "01", "'a'", "9223372036854775808", '"\\x"', "1]", "\ufeff1"]
BAD_PLACES = ["", "x", "-1", "+0", "1.0", "00000000000000000000", " 0", "0x0"]
NO_REQUESTS = [
    "", " ", "hello", "show ", " show", "status 0", "errors x", "append", "insert", "insert 0", "replace 0", "remove", "remove ", "remove 0 ",
    "remove  0", "remove 0 1", "insert  0 1", "INSERT 0 1", "append\t1", "show\r", "ok 0", "1", "move", "move 0", "move 0 ", "move 0 0 ", "MOVE 0 0", "filter", "filter.", "Filter .",
]  # fmt: skip


class Script:
    """A script, and the answers that are wanted: a refusal's number, or the filter and the inputs that are present after a line."""

    def __init__(self, rng):
        self.rng, self.lines, self.wants = rng, [], []
        options, self.filters = rng.choice(PLACES)
        self.words = [*options, *ALWAYS, "--depth", rng.choice(DEPTHS)]
        self.first_filter = self.filter = rng.choice(self.filters)
        self.follow = rng.random() < 0.5
        self.texts = rng.sample(TEXTS, rng.randrange(1, 7))  # few, so that some edits make all runs end well
        most = rng.choice([4] * 9 + [200])  # some sessions have several pages of 64 inputs
        self.files = [[rng.choice(self.texts) for _ in range(rng.randrange(most))] for _ in range(rng.randrange(3))]
        self.inputs = [text for file in self.files for text in file]
        if self.follow:
            self.show()
        for _ in range(rng.randrange(1, 4)):
            for _ in range(rng.randrange(8)):
                self.change()
                if self.follow:
                    self.show()
            self.look()

    def show(self):
        for line in ("show", "errors"):
            self.accept(line)

    def add(self, line, want):
        self.lines.append(line)
        self.wants.append(want)

    def accept(self, line):
        self.add(line, (self.filter, tuple(self.inputs)))

    def look(self):
        for line in self.rng.sample(["show", "errors", "status"], 3):
            self.accept(line)

    def place(self, limit):
        """A place as it is written, and whether it is below the limit (None: it is no place)."""
        if self.rng.random() < 0.1:
            return self.rng.choice(BAD_PLACES), None
        place = self.rng.choice([limit, limit + 1, 10**19 - 1]) if self.rng.random() < 0.15 or not limit else self.rng.randrange(limit)
        return str(place).zfill(self.rng.choice([1, 1, 1, 2, 19])), place < limit

    def change(self):
        kind = self.rng.choice(["insert"] * 2 + ["replace"] * 2 + ["remove"] * 2 + ["append"] * 2 + ["move"] * 2 + ["filter", "no request"])
        if kind == "no request":
            self.add(self.rng.choice(NO_REQUESTS), UNKNOWN)
        elif kind == "filter":
            self.take()
        elif kind == "move":
            self.move()
        else:
            self.edit(kind)

    def take(self):
        if self.rng.random() < 0.25:
            text, refusal = self.rng.choice(BAD_FILTERS)
            return self.add(f"filter {text}", refusal)
        self.filter = self.rng.choice([*self.filters, ""])
        return self.accept(f"filter {self.filter}")

    def move(self):
        (first, is_there), (second, has_place) = (self.place(len(self.inputs)) for _ in range(2))
        line = f"move {first} {second}"
        if is_there is None or has_place is None:
            return self.add(line, UNKNOWN)
        if not (is_there and has_place):
            return self.add(line, NO_PLACE)
        self.inputs.insert(int(second), self.inputs.pop(int(first)))
        return self.accept(line)

    def edit(self, kind):
        count, is_bad = len(self.inputs), self.rng.random() < 0.15
        text = self.rng.choice(BAD_TEXTS if is_bad else self.texts)
        written, has_place = ("", True) if kind == "append" else self.place(count + (kind == "insert"))
        line = " ".join([kind] + [written] * (kind != "append") + [text] * (kind != "remove"))
        if has_place is None:
            return self.add(line, UNKNOWN)
        if not has_place:
            return self.add(line, NO_PLACE)
        if is_bad and kind != "remove":
            return self.add(line, BAD_TEXT)
        at = count if kind == "append" else int(written)
        self.inputs[at : at + (kind in ("replace", "remove"))] = [] if kind == "remove" else [text]
        return self.accept(line)

    def files_in(self, folder):
        """Writes the files of the first inputs into a folder, and answers their names."""
        names = [f"{number}.json" for number in range(len(self.files))]
        for name, texts in zip(names, self.files):
            pathlib.Path(folder, name).write_text(" \n".join(texts) + "\n")
        return names

    def __str__(self):
        return f"{self.words} {self.first_filter!r}{' --follow' * self.follow} over {self.files}: {self.lines}"


# ---- running and comparing


HEAD = re.compile(rb"(ok|refused|status|out|err) (0|[1-9][0-9]*)\n")
SPLICE = re.compile(rb"(out|err) (0|[1-9][0-9]*) (0|[1-9][0-9]*) (0|[1-9][0-9]*)\n")


def bytes_at(data, head, count):
    """So many bytes after the match of a line."""
    if head.end() + count > len(data):
        raise ValueError(f"fewer bytes than {head[0]!r} says")
    return data[head.end() : head.end() + count]


def splice_at(data, at, word):
    """The splice with this word: its place, how many bytes go and which come, and where it ends."""
    head = SPLICE.match(data, at)
    if not head or head[1] != word:
        raise ValueError(f"no splice {word!r}: {data[at : at + 60]!r}")
    put = bytes_at(data, head, int(head[4]))
    return (int(head[2]), int(head[3]), put), head.end() + len(put)


def splices_at(data, at):
    """All splices from there on, and where they end. (The output itself has one number after its word.)"""
    splices = []
    while not splices or (head := SPLICE.match(data, at)) and head[1] == b"out":
        for word in (b"out", b"err"):
            splice, at = splice_at(data, at, word)
            splices.append(splice)
    return splices, at


def answers_of(data, follow=False):
    """The answers in these bytes, as triples of a word, a number and the bytes that follow. With `follow` splices follow an
    accepted line: those of the output and of the errors, and of a move twice."""
    found, at = [], 0
    while at < len(data):
        head = HEAD.match(data, at)
        if not head:
            raise ValueError(f"no answer: {data[at : at + 60]!r}")
        word, number = head[1].decode(), int(head[2])
        if word == "ok" and follow:
            splices, at = splices_at(data, head.end())
            found.append((word, number, splices))
            continue
        body = bytes_at(data, head, number if word in ("out", "err") else 0)
        at = head.end() + len(body)
        found.append((word, number, body))
    return found


def spliced(data, splice):
    """The bytes after a splice, which must lie within them."""
    at, cut, put = splice
    if at + cut > len(data):
        raise ValueError(f"{cut} bytes at {at} of {len(data)}")
    return data[:at] + put + data[at + cut :]


def followed(client, splices):
    """The output and the errors after these splices, which change them in turns."""
    client = list(client)
    for number, splice in enumerate(splices):
        client[number % 2] = spliced(client[number % 2], splice)
    return client


def session(program, script):
    """What the session of a script writes, and its status."""
    with tempfile.TemporaryDirectory() as folder:
        words = ["--live", *["--follow"] * script.follow, *script.words, script.first_filter, *script.files_in(folder)]
        text = "\n".join(script.lines) + script.rng.choice(["", "\n"])
        done = subprocess.run([program, *words], input=text.encode(), capture_output=True, timeout=SECONDS, cwd=folder)
        return done.stdout, done.stderr, done.returncode


def from_scratch(words):
    """What the reference writes in runs of a filter from scratch on some texts, and its status."""
    left, variables = reference.take_variables([*words, "."])
    given, _, _ = reference.options_of(left)
    command = functools.lru_cache(None)(lambda text: reference.Command(given, text, [], variables))
    return functools.lru_cache(None)(lambda filter_text, texts: command(filter_text).outcome([reference.read_text(text.encode()) for text in texts]))


def fault_of_splices(line, client, splices):
    """What is wrong with the splices that answer a line: a move has four, and those of another filter replace everything."""
    if len(splices) != (4 if line.startswith("move") else 2):
        return f"{len(splices)} splices"
    if line.startswith("filter") and any(splice[:2] != (0, len(data)) for data, splice in zip(client, splices)):
        return f"{splices} after {client}"
    return None


def faults_of(program, script):
    """What the session of a script did otherwise than runs from scratch."""
    wrote, told, status = session(program, script)
    if told or status:
        return f"standard error {told!r}, status {status}"
    answers = answers_of(wrote, script.follow)
    if len(answers) != len(script.wants):
        return f"{len(script.wants)} lines, {len(answers)} answers"
    scratch = from_scratch(script.words)
    client = [b"", b""]
    for number, (line, want, answer) in enumerate(zip(script.lines, script.wants, answers)):
        if isinstance(want, int):
            if answer != ("refused", want, b""):
                return f"line {number}, {line!r}: got {answer}; wanted refusal {want}"
            continue
        output, errors, status = scratch(*want)
        if number < 2 and script.follow:
            client[number] = answer[2]  # the output and the errors of the first inputs
        elif script.follow and answer[0] == "ok":
            if fault := fault_of_splices(line, client, answer[2]):
                return f"line {number}, {line!r}: {fault}"
            client = followed(client, answer[2])
            answer = (*answer[:2], b"")
        shown = {"show": ("out", len(output), output), "errors": ("err", len(errors), errors), "status": ("status", status, b"")}
        if answer != shown.get(line, ("ok", status, b"")) or script.follow and number and client != [output, errors]:
            return f"line {number}, {line!r}: got {answer}, the client has {client}; from scratch {output, errors, status} for {want}"
    return None


def fault_of_number(program, seed, number):
    script = Script(random.Random(f"{seed} {number}"))
    try:
        fault = faults_of(program, script)
    except (OSError, ValueError, subprocess.TimeoutExpired) as error:
        fault = error
    return fault and f"{script}\n    {fault}"


def compare(program, count, seed, name="random_scripts.py"):
    """How many scripts passed and how many failed."""
    failed, one = 0, functools.partial(fault_of_number, program, seed)
    with concurrent.futures.ProcessPoolExecutor(os.cpu_count()) as pool:
        for number, fault in enumerate(pool.map(one, range(count), chunksize=10)):
            if fault:
                failed += 1
                print(f"FAILED {name}: script {number} of seed {seed}: {fault}", flush=True)
    print(f"random scripts: {count - failed} passed, {failed} failed", flush=True)
    return count - failed, failed


def main():
    options = argparse.ArgumentParser(description=__doc__.splitlines()[0])
    options.add_argument("--program", default=str(HERE.parent / "jql"))
    options.add_argument("--count", type=int, default=1000)
    options.add_argument("--seed", type=int, default=1)
    given = options.parse_args()
    _, failed = compare(str(pathlib.Path(given.program).resolve()), given.count, given.seed)
    sys.exit(1 if failed else 0)


if __name__ == "__main__":
    main()
