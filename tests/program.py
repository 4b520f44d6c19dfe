#!/usr/bin/env python3
"""Tests of the program that take more than one command: slow pipes, readers that stop, streams in pieces, words and files.

    tests/program.py PROGRAM

Each test is a function that answers what was wrong, nothing where all was well. The last line is 'N passed, M failed'.
"""
import concurrent.futures
import json
import os
import pathlib
import random
import re
import resource
import select
import string
import subprocess
import sys
import tempfile
import time

SECONDS = 60
PIECE = 65_536


def start(program, *words, **streams):
    pipe = {"stdin": subprocess.PIPE, "stdout": subprocess.PIPE, "stderr": subprocess.PIPE}
    return subprocess.Popen([program, *words], **{**pipe, **streams})


def read_within(stream, count, seconds=SECONDS):
    """What comes from a stream until there are so many bytes, it ends or time runs out."""
    found, end = b"", time.monotonic() + seconds
    while len(found) < count and select.select([stream], [], [], max(0, end - time.monotonic()))[0]:
        piece = os.read(stream.fileno(), count - len(found))
        if not piece:
            break
        found += piece
    return found


def send(process, text):
    process.stdin.write(text)
    process.stdin.flush()


def talk(program, words, turns):
    """Sends the first of each pair and waits for the second, with the input still open; then closes the input."""
    process = start(program, *words)
    with process:
        for given, want in turns:
            send(process, given)
            got = read_within(process.stdout, len(want))
            if got != want:
                process.kill()
                return f"after {given!r} wanted {want!r} before more is sent, got {got!r}"
        process.stdin.close()
        rest, told = process.stdout.read(), process.stderr.read()
    return (rest or told or process.returncode) and f"at the end: {rest!r}, {told!r}, status {process.returncode}"


def answers_come_before_more_is_sent(program):
    return talk(program, ["-c", "."], [(b"1\n2\n", b"1\n2\n"), (b"[3]", b"[3]\n"), (b'"a"{}', b'"a"\n{}\n')])


def a_text_in_pieces_is_answered_at_its_end(program):
    return talk(program, ["-c", "."], [(b'{"a":', b""), (b"[1,", b""), (b"2]}", b'{"a":[1,2]}\n'), (b"7 ", b"7\n")])


def a_run_s_outputs_come_before_the_next_text(program):
    return talk(program, ["-c", ".[]"], [(b"[1,2]\n", b"1\n2\n"), (b"[]\n[3]\n", b"3\n")])


def opened_pipe(path):
    """A named pipe, opened to write to it once it is open for reading."""
    end = time.monotonic() + SECONDS
    while True:
        try:
            return os.fdopen(os.open(path, os.O_WRONLY | os.O_NONBLOCK), "wb", buffering=0)
        except OSError:
            if time.monotonic() > end:
                raise
            time.sleep(0.01)


def answers_come_before_the_next_file(program):
    """Files that are pipes: what is in one is answered before its end, and before the next one is opened for writing."""
    with tempfile.TemporaryDirectory() as folder:
        names = [str(pathlib.Path(folder, name)) for name in ("a", "b")]
        for name in names:
            os.mkfifo(name)
        process = start(program, "-c", ".", *names, stdin=subprocess.DEVNULL)
        with process:
            for name, turns in zip(names, [[(b"1 ", b"1\n"), (b"[2]", b"[2]\n")], [(b'{"a":3}', b'{"a":3}\n'), (b" 4\n", b"4\n")]]):
                with opened_pipe(name) as pipe:
                    for given, want in turns:
                        pipe.write(given)
                        if (got := read_within(process.stdout, len(want))) != want:
                            process.kill()
                            return f"after {given!r} in {name[-1]} wanted {want!r}, got {got!r}"
            rest, told = process.stdout.read(), process.stderr.read()
    return (rest, told, process.returncode) != (b"", b"", 0) and f"at the end: {rest!r}, {told!r}, status {process.returncode}"


def errors_come_before_more_is_sent(program):
    process = start(program, ".a")
    with process:
        send(process, b"5\n")
        want = b'jq: error: Cannot index number with "a"\n'
        got = read_within(process.stderr, len(want))
        process.stdin.close()
        if got != want:
            return f"wanted {want!r} before more is sent, got {got!r}"
        process.stdout.read()
    return process.returncode != 5 and f"status {process.returncode}"


def a_fault_ends_the_program_with_the_input_open(program):
    process = start(program, "-c", ".")
    with process:
        send(process, b"1 ] ")
        try:
            status = process.wait(SECONDS)
        except subprocess.TimeoutExpired:
            process.kill()
            return "still there after a text that cannot be read"
    return status != 2 and f"status {status}"


def a_halt_ends_the_program_with_the_input_open(program):
    process = start(program, "if . == 2 then \"end\" | halt_error(3) else . end")
    with process:
        send(process, b"1 2 ")
        out, told = read_within(process.stdout, 3), read_within(process.stderr, 4)
        try:
            status = process.wait(SECONDS)
        except subprocess.TimeoutExpired:
            process.kill()
            return "still there after a halt"
    return (out, told, status) != (b"1\n", b"end", 3) and f"got {out!r}, {told!r}, status {status}"


def a_refused_filter_reads_nothing(program):
    process = start(program, "1 +")
    with process:
        try:
            status = process.wait(SECONDS)
        except subprocess.TimeoutExpired:
            process.kill()
            return "waits for input"
    return status != 3 and f"status {status}"


def null_input_without_inputs_reads_nothing(program):
    process = start(program, "-n", "1")
    with process:
        got = read_within(process.stdout, 2)
        try:
            status = process.wait(SECONDS)
        except subprocess.TimeoutExpired:
            process.kill()
            return "waits for input"
    return (got, status) != (b"1\n", 0) and f"got {got!r}, status {status}"


def a_reader_that_stops_ends_the_program(program):
    """`jql .. | head -1` over a long input: the write fault comes soon, and not all is read."""
    process = start(program, "-c", ".")
    with process:
        process.stdout.close()
        try:
            for _ in range(1000):
                send(process, b"1\n" * (PIECE // 2))
        except BrokenPipeError:
            pass
        told = read_within(process.stderr, 1000)
        try:
            process.stdin.close()
        except BrokenPipeError:
            pass
    want = b"jq: error: write fault\n"
    return (told, process.returncode) != (want, 2) and f"got {told!r}, status {process.returncode}"


def nobody_reads_one_output(program):
    """`jql -n 1 | head -0`: the program ends, with its line and status 2 where the reader was gone before."""
    process = start(program, "-n", "1")
    process.stdout.close()
    with process:
        told = process.stderr.read()
    expected = [(b"", 0), (b"jq: error: write fault\n", 2)]
    return (told, process.returncode) not in expected and f"got {told!r}, status {process.returncode}"


def an_endless_filter_ends_with_its_reader(program):
    process = start(program, "-n", "range(9223372036854775807)")
    with process:
        got = read_within(process.stdout, 6)
        process.stdout.close()
        try:
            status = process.wait(SECONDS)
        except subprocess.TimeoutExpired:
            process.kill()
            return "still there after its reader went away"
    return (got, status) != (b"0\n1\n2\n", 2) and f"got {got!r}, status {status}"


def ran(program, words, stdin=subprocess.DEVNULL, folder=None):
    done = subprocess.run([program, *words], stdin=stdin, capture_output=True, timeout=SECONDS, cwd=folder)
    return done.stdout, done.stderr, done.returncode


def no_input(program):
    got = ran(program, ["."])
    return got != (b"", b"", 0) and f"got {got}"


def a_missing_file(program):
    got = ran(program, [".", "missing.json"], folder="/")
    return got != (b"", b"jq: error: read fault\n", 2) and f"got {got}"


def no_words_say_what_is_missing(program):
    out, told, status = ran(program, [])
    wrong = (out, status) != (b"", 2) or b"FILTER" not in told or b"--help" not in told
    return wrong and f"got {out!r}, {told!r}, {status}"


def help_has_the_options_of_the_manual(program):
    """Each line of `--help` for an option has the spellings of a row of the manual's table, and its words begin as the row's."""
    manual = (pathlib.Path(__file__).resolve().parent.parent / "docs/MANUAL.md").read_text()
    table = manual.split("| Option | Meaning |")[1].split("\n\n")[0].replace("`", "")
    rows = [tuple(cell.strip() for cell in line.split("|")[1:3]) for line in table.splitlines()[2:]]
    out, told, status = ran(program, ["--help"])
    lines = [line.strip().split("  ", 1) for line in out.decode().splitlines() if line.strip().startswith("-")]
    if (told, status) != (b"", 0) or len(lines) != len(rows):
        return f"{len(rows)} options in the manual, {len(lines)} in {out!r}, {told!r}, status {status}"
    for (option, words), (manual_option, meaning) in zip(lines, rows):
        if option != manual_option or not meaning.startswith(words.strip()):
            return f"{option!r}, {words!r} is not {manual_option!r}, {meaning!r}"
    return None


def the_options_of_help_are_those_that_are_taken(program):
    """Of all letters, the command takes those that `--help` names. It takes each longer option there, and there are no others
    in the definition of the command."""
    lines = [line.split() for line in ran(program, ["--help"])[0].decode().splitlines() if line.strip().startswith("-")]
    named = {word.rstrip(",") for words in lines for word in words if word.startswith("-")}
    letters = {f"-{letter}" for letter in string.ascii_letters}
    taken = {word for word in letters if ran(program, [word, "."])[2] != 2}
    values = {"--arg": ["x", "1"], "--argjson": ["x", "1"], "--depth": ["9"], "--live": [], "--follow": ["--live"]}
    long = {word for word in named if word.startswith("--")}
    taken |= {word for word in long if ran(program, [word, *values.get(word, []), "."])[2] != 2}
    definition = pathlib.Path(__file__).resolve().parent.parent / "crates/jq_cli/specs/Command.antt"
    defined = {f"--{name}" for name in re.findall(r'(?:flag|flag \d+|long = Some) \(codes "([a-z-]+)"\)', definition.read_text())}
    defined |= {"--arg", "--argjson", "--help", "--version"}
    if (named, named & long) != (taken, defined):
        return f"help names {sorted(named)}, the command takes {sorted(taken)}, and its definition has {sorted(defined)}"
    return None


def unknown_options_are_named(program):
    out, told, status = ran(program, ["--tab", "."])
    return (out, status) != (b"", 2) or b"--tab" not in told and f"got {out!r}, {told!r}, {status}"


def a_file_that_cannot_be_opened(program):
    with tempfile.TemporaryDirectory() as folder:
        pathlib.Path(folder, "a").write_text("1 2 ")
        got = ran(program, ["-c", ".", "a", "b", "a"], folder=folder)
    return got != (b"1\n2\n", b"jq: error: read fault\n", 2) and f"got {got}"


def a_million_lines(program):
    """Lines of one number, as a file and fed through a pipe in pieces."""
    process = start(program, "-n", "reduce inputs as $x (0; . + $x)")
    out, told = process.communicate(b"1\n" * 1_000_000, timeout=SECONDS)
    return (out, told, process.returncode) != (b"1000000\n", b"", 0) and f"got {out!r}, {told!r}, {process.returncode}"


def large_errors_in_little_memory(program):
    """200 MB of error lines, all for inputs of one piece, in an address space of 64 MiB."""
    limit = 64 << 20
    process = start(program, 'error("a" * 10000)', preexec_fn=lambda: resource.setrlimit(resource.RLIMIT_AS, (limit, limit)))
    out, told = process.communicate(b"1\n" * 20_000, timeout=SECONDS)
    want = (b"jq: error: " + b"a" * 10_000 + b"\n") * 20_000
    return (out, told == want, process.returncode) != (b"", True, 5) and f"got {out!r}, {len(told)} bytes of errors, {process.returncode}"


def nested(value, levels):
    for level in range(levels):
        value = [level, value, {"level": level}]
    return value


def large_values():
    """Values whose texts are larger than one piece: wide ones, nested ones, long strings, and items around the size of a piece."""
    yield list(range(100_000))
    yield {f"key {number}": [number, None, {"ü": str(number)}] for number in range(30_000)}
    yield nested(list(range(10_000)), 40)
    yield nested({f"{number}": [] for number in range(10_000)}, 20)
    yield ["a" * 100_000, {"b" * 100_000: "\n" * 100_000}, [[["c" * 100_000]]]]
    yield [["a" * length, {}, [], length] for length in range(32_700, 32_800, 9)]
    yield [[True, False, None, {"": {"": [[]] * 50}}] * 50] * 20


def large_outputs(program):
    """The bytes of large arrays and objects, each followed by a small output, and the end of a run whose device is full."""
    styles = [
        ("-c", {"separators": (",", ":")}, "\n"),
        ("-M", {"indent": 2, "separators": (",", ": ")}, "\n"),
        ("-r", {"indent": 2, "separators": (",", ": ")}, "\n"),
        ("-rc", {"separators": (",", ":")}, "\n"),
        ("-j", {"indent": 2, "separators": (",", ": ")}, ""),
    ]
    for number, value in enumerate(large_values()):
        text = json.dumps(value, ensure_ascii=False).encode()
        for option, layout, end in styles:
            process = start(program, option, "., 7, .")
            out, told = process.communicate(text, timeout=SECONDS)
            whole = json.dumps(value, ensure_ascii=False, sort_keys=True, **layout) + end
            want = f"{whole}7{end}{whole}".encode()
            if (out, told, process.returncode) != (want, b"", 0):
                place = next((at for at, (a, b) in enumerate(zip(out, want)) if a != b), min(len(out), len(want)))
                return f"value {number} with {option}: {len(out)} bytes of {len(want)}, other ones from {place} on: {out[place : place + 50]!r}, {told!r}"
    with open("/dev/full", "wb") as full:
        process = start(program, "-n", "[range(100000)], 7", stdout=full)
        told = process.communicate(timeout=SECONDS)[1]
    return (told, process.returncode) != (b"jq: error: write fault\n", 2) and f"on a full device: {told!r}, status {process.returncode}"


def a_large_output_in_little_memory(program):
    """One array of 200 MB of text, laid out and on one line, in an address space of 64 MiB. Its items are one string."""
    limit = 64 << 20
    item = b'"' + b"a" * 1000 + b'"'
    for option, start_of, between, end in (("-nc", b"[", b",", b"]\n"), ("-n", b"[\n  ", b",\n  ", b"\n]\n")):
        words = [option, '("a" * 1000) as $s | [range(200000) | $s]']
        process = start(program, *words, preexec_fn=lambda: resource.setrlimit(resource.RLIMIT_AS, (limit, limit)))
        out, told = process.communicate(timeout=SECONDS)
        if (out == start_of + between.join([item] * 200_000) + end, told, process.returncode) != (True, b"", 0):
            return f"with {option}: {len(out)} bytes, {told!r}, status {process.returncode}"
    return None


def a_text_of_the_greatest_length(program):
    """A string of 67,108,864 bytes is read, and one byte more is too long."""
    longest = 67_108_864
    process = start(program, "length")
    out, told = process.communicate(b'"' + b"a" * (longest - 2) + b'"', timeout=SECONDS)
    if (out, told, process.returncode) != (b"67108862\n", b"", 0):
        return f"at the limit: got {out!r}, {told!r}, {process.returncode}"
    process = start(program, "length")
    out, told = process.communicate(b'"' + b"a" * (longest - 1) + b'"', timeout=SECONDS)
    want = b"jq: error: input at byte 0: text too long\n"
    if (out, told, process.returncode) != (b"", want, 2):
        return f"past it: got {out!r}, {told!r}, {process.returncode}"
    got = ran(program, ["-n", f'"1" * {longest + 1} | fromjson'])
    return got != (b"", b"jq: error: fromjson: text too long\n", 5) and f"fromjson: got {got}"


# Streams, what `-c .` writes of each, and the fault that ends it.
STREAMS = [
    (b"", b"", None),
    (b" \t\r\n", b"", None),
    (b"12 ", b"12\n", None),
    (b"1\n2", b"1\n2\n", None),
    (b'{"b":1,"a":[1.0,1e3,-0]}', b'{"a":[1,1000,0],"b":1}\n', None),
    (b'1[2]"a""b"', b'1\n[2]\n"a"\n"b"\n', None),
    (b'{"a":5} 5 "}" ', b'{"a":5}\n5\n"}"\n', None),
    (b'["\\"]","\\\\"] "[\\\\" 1', b'["\\"]","\\\\"]\n"[\\\\"\n1\n', None),
    (b"null true", b"null\ntrue\n", None),
    (b"truefalse null", b"", "input at byte 0: malformed text"),
    (b"1,2", b"1\n", "input at byte 1: malformed text"),
    (b"1:2", b"1\n", "input at byte 1: malformed text"),
    (b"  ]", b"", "input at byte 2: malformed text"),
    (b"1 ] 2", b"1\n", "input at byte 2: malformed text"),
    (b"1 01 2", b"1\n", "input at byte 2: malformed text"),
    (b"1 2 1.5 3", b"1\n2\n", "input at byte 4: number is not a 64-bit whole number"),
    (b"[1.5,}", b"", "input at byte 0: number is not a 64-bit whole number"),
    (b"[10000000000e-10, 1e99999999999999999999]", b"", "input at byte 0: number is not a 64-bit whole number"),
    (b" [1", b"", "input at byte 1: unfinished text"),
    (b'1 "abc', b"1\n", "input at byte 2: unfinished text"),
    (b"[" * 128, b"", "input at byte 0: nested too deep"),
    (b"\xEF\xBB\xBF", b"", None),
    (b"\xEF\xBB\xBF1 [2]", b"1\n[2]\n", None),
    (b"\xEF\xBB\xBF ,", b"", "input at byte 4: malformed text"),
    (b"\xEF\xBB\xBF 1 x", b"1\n", "input at byte 6: malformed text"),
    (b"\xEF\xBB\xBF\xEF\xBB\xBF1", b"", "input at byte 3: malformed text"),
    (b"\xEF\xBB\xBF\xEF\xBB", b"", "input at byte 3: malformed text"),
    (b"\xEF", b"", "input at byte 0: malformed text"),
    (b"\xEF\xBB", b"", "input at byte 0: malformed text"),
    (b"\xEF1 2", b"", "input at byte 0: malformed text"),
    (b"\xEF\xBB 2", b"", "input at byte 0: malformed text"),
    (b"\xEF\xBB[]", b"", "input at byte 0: malformed text"),
]


def ran_on_pieces(program, words, pieces):
    """What a command does where each piece is a file, and so comes by a read of its own."""
    with tempfile.TemporaryDirectory() as folder:
        names = [str(number) for number in range(len(pieces))]
        for name, piece in zip(names, pieces):
            pathlib.Path(folder, name).write_bytes(piece)
        return ran(program, [*words, *(names or ["/dev/null"])], folder=folder)


def streams_in_pieces(program):
    """A stream has the same texts and the same fault, wherever its pieces end."""
    for stream, wrote, fault in STREAMS:
        want = (wrote, f"jq: error: {fault}\n".encode() if fault else b"", 2 if fault else 0)
        for size in (1, 2, 3, 1000):
            pieces = [stream[at : at + size] for at in range(0, len(stream), size)]
            if (got := ran_on_pieces(program, ["-c", "."], pieces)) != want:
                return f"{stream!r} in pieces of {size}: wanted {want}, got {got}"
    return None


def beginnings_of_a_stream(program):
    """Where a stream is cut off, the texts that are whole are read, and the last one is unfinished if it has begun."""
    stream, first, both = b'{"a":[1,"x\\u0041"]} [2]', b'{"a":[1,"xA"]}', b'{"a":[1,"xA"]},[2]'
    for end in range(len(stream) + 1):
        values = b"" if end < 19 else first if end < 23 else both
        fault = None if end in (0, 19, 20, 23) else f"jq: error: input at byte {0 if end < 19 else 20}: unfinished text\n".encode()
        lines = values.replace(b"},[", b"}\n[") + (b"\n" if values else b"")
        array = b"" if fault else b"[" + values + b"]\n"
        for words, out, status in [(["-c", "."], lines, 2), (["-s", "-c", "."], array, 2), (["-n", "-c", "[inputs]"], array, 5)]:
            want = (out, fault or b"", status if fault else 0)
            for size in (1, 5, 1000):
                pieces = [stream[:end][at : at + size] for at in range(0, end, size)]
                if (got := ran_on_pieces(program, words, pieces)) != want:
                    return f"{words} on {stream[:end]!r} in pieces of {size}: wanted {want}, got {got}"
    return None


def length_comes_before_nesting(program):
    """At the byte that makes a text too long and too deep it is too long."""
    longest = 67_108_864
    for length, why in ((longest - 1, "nested too deep"), (longest, "text too long")):
        text = b"[" * 127 + b" " * (length - 127)
        want = (b"", f"jq: error: input at byte 0: {why}\n".encode(), 2)
        for pieces in ([text + b"["], [text, b"["]):
            if (got := ran_on_pieces(program, ["."], pieces)) != want:
                return f"a bracket after {length} bytes, in {len(pieces)} pieces: got {got}"
    return None


def bytes_that_end_a_number(program):
    """White space, brackets, commas, colons and quotes end the number before them; every other byte belongs to its text."""
    for byte in range(256):
        out, _, _ = ran_on_pieces(program, ["."], [b"1" + bytes([byte])])
        want = b"1\n" if byte in b" \t\r\n{}[],:\"" else b"1%c\n" % byte if byte in b"0123456789" else b""
        if out != want:
            return f"1 and byte {byte}: wanted {want!r}, got {out!r}"
    return None


def deep_calls_and_nested_arrays(program):
    """Recursion takes memory and no stack of the machine: 90,000 calls inside one another, on 8 MB."""
    deep = "def f: if . > 0 then . - 1 | f else . end; 90000 | f"
    if (got := ran(program, ["--depth", "100000", "-n", deep])) != (b"0\n", b"", 0):
        return f"calls: got {got}"
    more = "def f: if . > 0 then 1 + (. - 1 | f) else 0 end; 90000 | f"
    if (got := ran(program, ["--depth", "100000", "-n", more])) != (b"90000\n", b"", 0):
        return f"calls that go on: got {got}"
    arrays = "def f: if . > 0 then [. - 1 | f][0] else . end; 90000 | f"
    return (got := ran(program, ["--depth", "100000", "-n", arrays])) != (b"0\n", b"", 0) and f"arrays: got {got}"


# Values of 100,000 levels: what makes them, the path to their innermost part, and the length of their text.
DEEP_VALUES = [
    ("reduce range(100000) as $i (0; [.])", "[range(100000) | 0]", 200_001),
    ("reduce range(100000) as $i (0; {a: .})", '[range(100000) | "a"]', 600_001),
    ("reduce range(50000) as $i (0; [{a: .}])", '[range(50000) | 0, "a"]', 400_001),
]
# What is done with one, and what that writes; more or less than its text is written as a difference.
ON_DEEP_VALUES = [
    ("empty", []),
    ("tojson, @text | length", ["+0", "+0"]),
    (". == deep, . < deep", ["true", "false"]),
    ("[., deep] | sort, unique, group_by(.), unique_by(.) | length", ["2", "1", "1", "1"]),
    ("[., deep] | min == max", ["true"]),
    ("[.] - [deep] | length", ["0"]),
    ("[.] | index([deep])", ["0"]),
    ("contains(deep), inside(deep)", ["true", "true"]),
    ("getpath(path), (setpath(path; 7), (getpath(path) |= 8) | getpath(path))", ["0", "7", "8"]),
    ("null | setpath(path; 7) | tojson | length", ["+0"]),
    ("delpaths([path]) == deep, (del(.[]) | length)", ["false", "0"]),
    ("(.[] |= 5) | tojson | length < 9", ["true"]),
    ("[.] | flatten | length", ["1"]),
    ("{a: .} * {a: deep}, {a: .} + {a: deep} | tojson | length", ["+6", "+6"]),
    ("deep * deep? // . | tojson | length", ["+0"]),
    ("try error catch . | tojson | length", ["+0"]),
    ("reduce (1, 2) as $x (.; [.]) | tojson | length", ["+4"]),
    ("[foreach (1, 2) as $x (.; [.]; tojson | length)] | .[]", ["+2", "+4"]),
    ("first(deep, 1), ([limit(1; deep)] | .[0]) | tojson | length", ["+0", "+0"]),
]


def in_a_small_stack(program, words, **streams):
    """What a command writes that has a stack of 1 MiB, and its status."""
    limit = 1 << 20
    process = start(program, *words, preexec_fn=lambda: resource.setrlimit(resource.RLIMIT_STACK, (limit, limit)), **streams)
    given = b"" if "stdin" not in streams else None
    out, told = process.communicate(given, timeout=SECONDS)
    return out, told, process.returncode


def deep_values(program):
    """A value may have any depth: what is done with it takes no stack for each level."""

    def wrong(row):
        (made, path, size), (text, lines) = row
        want = "".join(f"{size + int(line) if line[0] == '+' else line}\n" for line in lines).encode()
        got = in_a_small_stack(program, ["-n", f"def deep: {made}; def path: {path}; deep | {text}"], stdin=subprocess.DEVNULL)
        return got != (want, b"", 0) and f"{made} | {text}: wanted {want}, got {got[0][:80]!r}, {got[1][:80]!r}, status {got[2]}"

    with concurrent.futures.ThreadPoolExecutor(os.cpu_count()) as pool:
        found = list(pool.map(wrong, [(value, row) for value in DEEP_VALUES for row in ON_DEEP_VALUES]))
    return next((fault for fault in found if fault), None)


def deep_values_are_written(program):
    """As outputs, laid out too, as the line of an error and as what a halt writes."""
    brackets, levels = (b"[" * 100_000, b"]" * 100_000), 3_000
    text = brackets[0] + b"0" + brackets[1] + b"\n"
    opened = [b"  " * level + b"[\n" for level in range(levels)]
    closed = [b"\n" + b"  " * level + b"]" for level in reversed(range(levels))]
    laid_out = b"".join([*opened, b"  " * levels, b"0", *closed, b"\n"])
    wants = [
        (["-nc", "reduce range(100000) as $i (0; [.])"], (text, b"", 0)),
        (["-n", f"reduce range({levels}) as $i (0; [.])"], (laid_out, b"", 0)),
        (["-n", "reduce range(100000) as $i (0; [.]) | error"], (b"", b"jq: error (not a string): " + text, 5)),
        (["-n", "reduce range(100000) as $i (0; [.]) | halt_error"], (b"", text, 5)),
    ]
    for words, want in wants:
        out, told, status = in_a_small_stack(program, words, stdin=subprocess.DEVNULL)
        if (out, told, status) != want:
            return f"{words}: got {len(out)} bytes {out[:40]!r}, {len(told)} bytes {told[:40]!r}, status {status}"
    return None


def deep_values_in_a_session(program):
    """Each edit makes a value of 100,000 levels, by a run on each input or by a fold over all."""

    def shown(*values):
        lines = b"".join(b"[" * levels + text + b"]" * levels + b"\n" for levels, text in values)
        return b"out %d\n%b" % (len(lines), lines)

    script = b"append 1\nappend 2\nshow\nreplace 0 3\nremove 1\nshow\n"
    wants = [
        ("-c", "reduce range(100000) as $i (.; [.])", [(100_000, b"1"), (100_000, b"2")], [(100_000, b"3")]),
        ("-nc", "reduce (inputs | range(50000 * .)) as $i (0; [.])", [(150_000, b"0")], [(150_000, b"0")]),
    ]
    for option, text, before, after in wants:
        with tempfile.TemporaryFile() as lines:
            lines.write(script)
            lines.seek(0)
            got = in_a_small_stack(program, ["--live", option, text], stdin=lines)
        want = b"ok 0\nok 0\n%bok 0\nok 0\n%b" % (shown(*before), shown(*after))
        if got != (want, b"", 0):
            return f"{text}: got {len(got[0])} bytes {got[0][:60]!r}, {got[1][:60]!r}, status {got[2]}"
    return None


def filters_at_their_limits(program):
    """8,192 tokens and 256 open brackets are taken, one more of each is refused."""
    wants = [
        (".|" * 4095 + ".", b"1\n", b"", 0),
        ("-" + ".|" * 4095 + ".", b"-1\n", b"", 0),
        (".|" * 4096 + ".", b"", b"jq: error: more than 8192 tokens\n", 3),
        ("(" * 256 + "." + ")" * 256, b"1\n", b"", 0),
        ("(" * 257 + "." + ")" * 257, b"", b"jq: error: more than 256 open brackets\n", 3),
        ("[" * 8193, b"", b"jq: error: more than 8192 tokens\n", 3),
        ("[" * 257, b"", b"jq: error: more than 256 open brackets\n", 3),
        ("(" * 8193 + "~", b"", b"jq: error: bad token at byte 8193\n", 3),
        ("[" * 200, b"", b"jq: error: syntax error\n", 3),
    ]
    for text, *want in wants:
        done = subprocess.run([program, "-c", "--", text], input=b"1", capture_output=True, timeout=SECONDS)
        got = [done.stdout, done.stderr, done.returncode]
        if got != want:
            return f"{text[:20]}..: wanted {want}, got {got}"
    return None


def the_deepest_filters(program):
    """Filters of about 8,190 tokens that nest as deep as they can compile and run on the machine's usual stack."""
    shapes = [
        ("-", ".", "", 8191),
        (".|", ".", "", 4095),
        (".,", ".", "", 4095),
        (".//", ".", "", 4095),
        ("-", "try .", "", 8190),
        (". as $y | ", ".", "", 2047),
        ("label $y | ", ".", "", 2730),
        ("def f: .; ", ".", "", 1638),
        ("def f: ", ".", "; .", 1638),
        ("if ", ".", " then . else . end", 1365),
        ("if . then ", ".", " else . end", 1365),
        ("if . then . else ", ".", " end", 1365),
        ("if . then ", ".", " end", 2047),
        ("", ".", "+.", 4095),
        ("", ".", " and .", 4095),
        ("", ".a", ".a", 8191),
        ("", ".", "[]", 4095),
        ("", ".", "?", 8191),
        ("(", ".", ")", 256),
        ("[", ".", "]", 256),
        (".[", ".", "]", 256),
        ("{a: ", ".", "}", 256),
        ('"\\(', ".", ')"', 256),
        ("first(", ".", ")", 256),
        ("reduce . as $y (0; ", ".", ")", 256),
    ]
    for front, middle, back, count in shapes:
        text = front * count + middle + back * count
        done = subprocess.run([program, "-c", "--", text], input=b"1", capture_output=True, timeout=SECONDS)
        if done.returncode not in (0, 5):
            return f"{text[:30]}..: status {done.returncode}, {done.stderr[:200]!r}"
    return None


def unanswered(program, texts):
    """The first of these filters that is neither run nor refused as a filter."""

    def is_answered(text):
        done = subprocess.run([program, "-n", "--", text], capture_output=True, timeout=SECONDS)
        return done.returncode in (0, 3, 5)

    with concurrent.futures.ThreadPoolExecutor(os.cpu_count()) as pool:
        for text, answered in zip(texts, pool.map(is_answered, texts)):
            if not answered:
                return f"{len(text)} characters: {text[:30]!r}..{text[-30:]!r}"
    return None


def beginnings_of_the_prelude(program):
    """The prelude is a filter too, and where its text is cut off, that is run or refused."""
    source = (pathlib.Path(__file__).resolve().parent.parent / "crates/jq_tree/src/prelude.rt").read_text()
    prelude = source.split('r#"')[1].split('"#;')[0]
    return unanswered(program, [prelude[:end] for end in range(len(prelude) + 1)])


def texts_without_a_pattern(program):
    """Long texts of characters drawn at random: each is run or refused."""
    rng = random.Random(1)
    printed = "\t\n !\"#$%&'()*+,-./0123456789:;<=>?@AZ[\\]^_`az{|}~\x7f"
    shapes = [(printed, 65_536), (".|,()[]{}", 65_536), (".|", 8192), ("-.", 8192), ("a|1$. ", 8192), ("([.])", 8192)]
    return unanswered(program, ["".join(rng.choices(alphabet, k=count)) for alphabet, count in shapes])


TESTS = [
    answers_come_before_more_is_sent,
    a_text_in_pieces_is_answered_at_its_end,
    a_run_s_outputs_come_before_the_next_text,
    answers_come_before_the_next_file,
    errors_come_before_more_is_sent,
    a_fault_ends_the_program_with_the_input_open,
    a_halt_ends_the_program_with_the_input_open,
    a_refused_filter_reads_nothing,
    null_input_without_inputs_reads_nothing,
    a_reader_that_stops_ends_the_program,
    nobody_reads_one_output,
    an_endless_filter_ends_with_its_reader,
    no_input,
    a_missing_file,
    no_words_say_what_is_missing,
    help_has_the_options_of_the_manual,
    the_options_of_help_are_those_that_are_taken,
    unknown_options_are_named,
    a_file_that_cannot_be_opened,
    a_million_lines,
    large_errors_in_little_memory,
    large_outputs,
    a_large_output_in_little_memory,
    a_text_of_the_greatest_length,
    streams_in_pieces,
    beginnings_of_a_stream,
    length_comes_before_nesting,
    bytes_that_end_a_number,
    deep_calls_and_nested_arrays,
    deep_values,
    deep_values_are_written,
    deep_values_in_a_session,
    filters_at_their_limits,
    the_deepest_filters,
    beginnings_of_the_prelude,
    texts_without_a_pattern,
]


def run_tests(name, what, tests, program):
    """How many of these tests passed and how many failed; the name is that of their file."""
    failed = 0
    for test in tests:
        try:
            fault = test(program)
        except (OSError, ValueError, subprocess.TimeoutExpired) as error:
            fault = error
        if fault:
            failed += 1
            print(f"FAILED {name}: {test.__name__}\n    {fault}", flush=True)
    print(f"{what}: {len(tests) - failed} passed, {failed} failed", flush=True)
    return len(tests) - failed, failed


def main():
    _, failed = run_tests("program.py", "tests of the program", TESTS, str(pathlib.Path(sys.argv[1]).resolve()))
    sys.exit(1 if failed else 0)


if __name__ == "__main__":
    main()
