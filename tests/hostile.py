#!/usr/bin/env python3
"""Hostile use of the program: random and damaged texts, filters, sessions and words.

    tests/hostile.py PROGRAM [--times N] [--first N]

Texts, filters, lines and words are put together at random from a seed, most of them by damage to those of tests/. Texts and lines come to
the program in pieces of random sizes. What it writes for a text is compared with tests/reference.py, and does not depend on the pieces.
No run may end by a signal, or with a status that the manual does not name. A filter that takes longer than a second is stopped and not
judged. With --times there are N times as many cases, and --first is the number of the first case of each kind. A case that fails is
printed with its number, its words and its input. The last line is 'N passed, M failed'.
"""
import argparse
import concurrent.futures
import functools
import os
import pathlib
import random
import re
import resource
import socket
import subprocess
import sys
import tempfile
import tomllib

from program import SECONDS, run_tests
from random_scripts import BAD_TEXTS, NO_REQUESTS, TEXTS, answers_of
from reference import Fault, Refused, Usage, options_of, printed, take_variables, texts_of

HERE = pathlib.Path(__file__).resolve().parent
MOST_MEMORY = 256 << 20  # of each run

# ---- what is damaged


@functools.cache
def cases():
    """The cases of tests/*.toml that have words."""
    found = [case for path in sorted(HERE.glob("*.toml")) for case in tomllib.loads(path.read_text())["case"]]
    return [case for case in found if case.get("args")]


@functools.cache
def real_texts():
    inputs = {case["stdin"].encode() for case in cases() if case.get("stdin") and "--live" not in case["args"]}
    return sorted(inputs) + [text.encode() for text in TEXTS] + [
        b'{"name":"J\\u00fcrgen","tags":["a","b\\n"],"n":-12,"at":{"x":1e3,"y":null}}\n' * 3,
        b"\xef\xbb\xbf[1, 2, {\"a\": [true, false]}]",
        b"[" * 127 + b"]" * 127,
        b'"' + b"\\ud83d\\ude00" * 9 + b'" ' + b"9" * 19,
    ]  # fmt: skip


def filter_place(words):
    """Where the filter is among the words of a case, or None where they have none."""
    try:
        left, _ = take_variables(words)
        _, text, _ = options_of(left)
    except (Usage, Fault):
        return None
    return max(number for number, word in enumerate(words) if word == text)


@functools.cache
def real_filters():
    """Words with a filter, its place among them, and an input."""
    found = []
    for case in cases():
        words = case["args"]
        place = None if "--live" in words or case.get("files") else filter_place(words)
        if place is not None:
            found.append((words, place, case.get("stdin", "").encode()))
    return found


BYTES = b'{}[]",:\\ \t\n\r0129-+.eEtfnu\x00\x1f\x7f\x80\xbf\xc3\xed\xef\xf0\xff'
SNIPPETS = [
    b"[", b"]", b"{", b"}", b'"', b"\\", b",", b":", b"null", b"true", b"-", b"0", b"1e", b"1.0", b"9223372036854775807", b"9223372036854775808",
    b"1e99999999999999999999", b"0e99999999999999999999", b"\\ud800", b"\\udc00", b"\\u0000", b'"\\u00e4"', b"\xef\xbb\xbf", b"\xed\xa0\x80",
    b"\xf4\x90\x80\x80", b"\xc0\x80", b"[" * 128, b'{"a":' * 50, b"]" * 3, b" " * 40, b'{"a":1,"a":2}', b"\n", b"'", b"/*", b"NaN",
]  # fmt: skip
TOKENS = [
    ".", "..", "[", "]", "(", ")", "{", "}", "|", ",", ":", ";", "=", "|=", "+=", "//=", "==", "!=", "<", "<=", "+", "-", "*", "/", "%", "//", "?", "$",
    "$x", ".a", ".[", ".[]", '"', '\\(', '"a\\(.)b"', "@json", "@csv", "@", "def f: ", "def f($n; g): ", "f", "if ", " then ", " elif ", " else ", " end",
    "try ", " catch ", "reduce ", "foreach ", " as ", " as $x | ", " as [$a, {b: $c}] ", "label $o | ", "break $o", " and ", " or ", " not ", "empty",
    "error", "halt", "halt_error", "inputs", "range(3)", "limit(2; ", "first(", "path(", "getpath(", "setpath(", "delpaths(", "paths", "recurse", "walk(",
    "tojson", "fromjson", "tostring", "tonumber", "sort", "group_by(", "add", "length", "keys", "to_entries", "split(", "join(", "implode", "explode",
    "0", "1", "-1", "2147483648", "9223372036854775807", "1e3", "1.5", "null", "true", "#", "\n", " ", "~", "\u00fc", "\U0001f600", "\x00", "import", "__loc__",
]  # fmt: skip
NUMBERS = ["0", "1", "2", "-1", "-2", "3", "7", "255", "256", "2147483648", "16777215", "16777216", "9223372036854775807", "1000"]
FORMS = [
    "F | G", "F, G", "[F] | G", "{a: F} | G", "[F, G]", "F as $z | G", "F as [$y, {a: $z}] | G", "reduce F as $z (.; G)", "foreach F as $z (0; G; .)",
    "path(F)", "[paths(F)] | G", "F |= G", "F = G", "F += G", "F //= G", "F // G", "F + G", "F - G", "F * G", "F / G", "F % G", "F == G", "F < G",
    "try F catch G", "[limit(3; F)] | G", "first(F), G", "walk(F)", "map(F) | G", "def h: F; h, h | G", "def h(g): F | g; h(G)", "label $o | F, break $o, G",
    "[F] | sort_by(G)", "[F] | group_by(G)", "F and G", "F or (G | not)", "if F then G else . end", "[F] | unique | tojson | fromjson", "del(F)", "to_entries | F",
    "[F] | tostring, @csv, @sh", "\"\\(F)-\\(G)\"", "[.. | F?]", "getpath([F]) | G", "setpath([F]; G)", "delpaths([[F], [G]])", "limit(3; repeat(F))",
    "limit(5; recurse(F))", "until(true; F)", "isempty(F), any(F; G), all(F; G)", "(F | halt_error), G", "split(F) | join(G)", "[range(3)] | .[F:G]",
    "reduce range(50000) as $z (F; [.]) | G", "[reduce range(50000) as $z (F; {a: .}) | ., G] | sort | tojson | length",
]  # fmt: skip


def parts_of(text):
    """The words of a text, and each other character or byte."""
    return re.findall(r"(?s)\w+|." if isinstance(text, str) else rb"(?s)\w+|.", text)


def damaged(rng, text, snippets, other):
    """A text with a few changes: parts taken out, repeated, moved or cut off, and snippets or parts of another text put in."""
    parts, others = parts_of(text), parts_of(other)
    for _ in range(rng.choice([1, 1, 1, 1, 2, 3])):
        at = rng.randrange(len(parts) + 1)
        end = min(len(parts), at + rng.choice([1, 1, 1, 2, 6]))
        from_other = rng.randrange(len(others) + 1)
        taken = others[from_other : from_other + rng.choice([1, 2, 5, 20])]
        to = rng.randrange(len(parts) + 1)
        changes = [
            lambda: parts[:at] + parts[end:],
            lambda: parts[:end] + parts[at:end] * rng.choice([1, 2, 9]) + parts[end:],
            lambda: parts[:at] + [rng.choice(snippets)] + parts[at:],
            lambda: parts[:at] + [rng.choice(snippets)] + parts[end:],
            lambda: parts[:at] + taken + parts[at:],
            lambda: parts[:at] + taken + parts[end:],
            lambda: parts[:to] + parts[at:end] + parts[to:],
            lambda: parts[:at] if rng.random() < 0.3 else parts,
        ]
        parts = rng.choice(changes)()
    return text[:0].join(parts)


def with_numbers(rng, text):
    """A filter with other numbers in it."""
    return re.sub(r"(?<![\w$.\"])[0-9]+", lambda found: rng.choice([found[0], *NUMBERS]), text)


def combined(rng, first, second):
    """A filter of two filters."""
    return rng.choice(FORMS).replace("F", f"({first})").replace("G", f"({second})")


def damaged_bytes(rng, texts):
    """A text, damaged or not, and perhaps another one after it."""
    text = rng.choice(texts)
    if rng.random() < 0.85:
        text = damaged(rng, text, SNIPPETS, rng.choice(texts))
    if text and rng.random() < 0.15:
        at = rng.randrange(len(text))
        text = text[:at] + bytes([text[at] ^ 1 << rng.randrange(8)]) + text[at + 1 :]
    if rng.random() < 0.3:
        text = rng.choice(texts) + rng.choice([b"", b" ", b"\n"]) + text
    return text


def random_bytes(rng):
    alphabet = rng.choice([BYTES, BYTES, bytes(range(256)), b'[]{}",:1 ', b'"\\u0dD8a\xc3\xa9'])
    return bytes(rng.choices(alphabet, k=rng.choice([1, 2, 3, 5, 9, 20, 60, 200])))


def in_pieces(rng, text):
    """The text cut at random places."""
    most = rng.choice([1, 2, 3, 7, 30, 200, 60_000])
    pieces, at = [], 0
    while at < len(text):
        end = at + rng.randrange(1, most + 1)
        pieces.append(text[at:end])
        at = end
    return pieces


# ---- running


def ran_on(program, words, pieces):
    """What a command writes, and its status: each of its reads takes one of the pieces."""
    ours, theirs = socket.socketpair(socket.AF_UNIX, socket.SOCK_SEQPACKET)
    with tempfile.TemporaryFile() as out, tempfile.TemporaryFile() as told, ours:
        with theirs:
            process = subprocess.Popen([program, *words], stdin=theirs, stdout=out, stderr=told)
        try:
            for piece in pieces:
                ours.send(piece)
            ours.shutdown(socket.SHUT_WR)
        except (BrokenPipeError, ConnectionResetError):
            pass
        try:
            status = process.wait(SECONDS)
        except subprocess.TimeoutExpired:
            process.kill()
            process.wait()
            raise
        out.seek(0)
        told.seek(0)
        return out.read(), told.read(), status


def known_statuses(words, text):
    """The statuses that the manual names, for these words, where a filter may have this text."""
    if "halt" in text:
        return range(256)
    return {0, 1, 2, 3, 4, 5} if any(re.fullmatch(r"-[a-zA-Z]*e[a-zA-Z]*|--exit-status", str(word)) for word in words) else {0, 2, 3, 5}


def status_of(program, words, given):
    """The status of a command, or None where it takes longer than a second."""
    streams = {"stdout": subprocess.DEVNULL, "stderr": subprocess.DEVNULL}
    try:
        return subprocess.run([program, *words], input=given, timeout=1, **streams).returncode
    except subprocess.TimeoutExpired:
        return None


# ---- texts

MODES = [["-c", "."], ["-c", "."], ["-sc", "."], ["-nc", "[inputs]"]]


def wanted(words, text):
    """What a command of MODES writes for a text, and its status."""
    values, line = [], b""
    try:
        values.extend(iter_of(texts_of(text), values))
    except Fault as found:
        line = f"jq: error: input at byte {found.at}: {found.why}\n".encode()
    if words[0] == "-c":
        return b"".join(printed(value).encode() + b"\n" for value in values), line, 2 if line else 0
    if line:
        return b"", line, 2 if words[0] == "-sc" else 5
    return printed(values).encode() + b"\n", b"", 0


def iter_of(found, values):
    """Puts what is found into the list one by one, so that it has those before a fault."""
    for value in found:
        values.append(value)
    return ()


def fault_of_text(program, number):
    rng = random.Random(f"texts {number}")
    text = random_bytes(rng) if rng.random() < 0.2 else damaged_bytes(rng, real_texts())
    words = rng.choice(MODES)
    pieces = in_pieces(rng, text)
    want, got = wanted(words, text), ran_on(program, words, pieces)
    if got == want:
        return None
    return f"{words} on {text!r} in pieces of {[len(piece) for piece in pieces]}: wanted {want}, got {got}; whole {ran_on(program, words, [text])}"


# ---- filters


def random_filter(rng):
    """Words with a filter that is damaged, has other numbers or is a part of another one, and an input."""
    words, place, given = rng.choice(real_filters())
    other_words, other_place, _ = rng.choice(real_filters())
    text, other, kind = words[place], other_words[other_place], rng.random()
    if kind < 0.5:
        text = combined(rng, text, other)
    if kind > 0.3:
        text = with_numbers(rng, text)
    if kind < 0.1 or kind > 0.6:
        text = damaged(rng, text, TOKENS, other)
    text = text.replace("\x00", "")
    return [*words[:place], " " + text if text.startswith("-") else text, *words[place + 1 :]], text, given


def fault_of_filter(program, number):
    words, text, given = random_filter(random.Random(f"filters {number}"))
    status = status_of(program, words, given)
    is_known = status is None or status in known_statuses(words, text)
    return not is_known and f"{words} on {given!r}: status {status}"


# ---- sessions


def random_line(rng):
    if rng.random() < 0.15:
        return rng.choice([random_bytes(rng), rng.choice(NO_REQUESTS).encode()]).replace(b"\n", b"")
    word = rng.choice([b"append", b"append", b"insert", b"replace", b"remove", b"show", b"errors", b"status"])
    place = str(rng.choice([0, 0, 1, 2, 5, 10**18])).encode()
    text = rng.choice(TEXTS + BAD_TEXTS).encode() if rng.random() < 0.5 else damaged_bytes(rng, real_texts())
    parts = {b"append": [text], b"insert": [place, text], b"replace": [place, text], b"remove": [place]}.get(word, [])
    line = b" ".join([word, *parts]).replace(b"\n", b" ")
    return damaged_bytes(rng, [line]).replace(b"\n", b"") if rng.random() < 0.1 else line


LIVE = [["-c", "."], ["-sc", "., length"], ["-nc", "reduce inputs as $x (0; . + 1)"], ["-c", "try (.a, error) catch ."], ["-s", "add"]]


def fault_of_session(program, number):
    rng = random.Random(f"sessions {number}")
    lines = [random_line(rng) for _ in range(60)]
    text, words = b"\n".join(lines) + b"\n", ["--live", *rng.choice([[], ["--follow"]]), *rng.choice(LIVE)]
    first, second = (ran_on(program, words, in_pieces(rng, text)) for _ in range(2))
    if first != second:
        return f"{words} on {text!r}: in other pieces {first} and {second}"
    if first[1:] != (b"", 0) or len(answers_of(first[0], "--follow" in words)) != len(lines):
        return f"{words} on {text!r}: {len(lines)} lines, {first}"
    return None


# ---- words

WORDS = [
    "-c", "-r", "-j", "-n", "-s", "-e", "-S", "-M", "-h", "-V", "-nr", "-cx", "-", "--", "---", "--arg", "--argjson", "--depth", "--depth=3", "--depth=", "--live",
    "--follow", "--explain", "--help", "--version", "--null-input", "--tab", "--arg=x", "x", "1", "0", "100001", "-1", "[1", '{"a":1}', "", " ", ".", ".a", "$x", "1 +", "[inputs]", "/",
    "/dev/null", "missing.json", b"\xff\xfe", "\u00fc", "a" * 5000, "halt", "error",
]  # fmt: skip


def fault_of_words(program, number):
    rng = random.Random(f"words {number}")
    words = [rng.choice(WORDS) for _ in range(rng.randrange(8))]
    status = status_of(program, words, rng.choice([b"", b"1 [2]", b"x", b"show\nstatus\n"]))
    return status not in known_statuses(words, "halt" if "halt" in words else "") and f"{words}: status {status}"


# ---- all


def fault_in(work):
    """The first fault of some cases, with its number."""
    fault_of, program, numbers = work
    for number in numbers:
        try:
            fault = fault_of(program, number)
        except (OSError, ValueError, subprocess.TimeoutExpired, RecursionError) as error:
            fault = repr(error)
        if fault:
            return f"case {number}: {fault}"
    return None


def begin():
    """In each process that runs cases: no core files, and a bound on memory for what it starts."""
    resource.setrlimit(resource.RLIMIT_CORE, (0, 0))
    resource.setrlimit(resource.RLIMIT_AS, (MOST_MEMORY, MOST_MEMORY))


def first_fault(fault_of, count):
    """A test of so many cases, that many times as often as it is asked for."""

    def test(program):
        first, last = GIVEN.first, GIVEN.first + count * GIVEN.times
        works = [(fault_of, program, range(at, min(last, at + 50))) for at in range(first, last, 50)]
        with concurrent.futures.ProcessPoolExecutor(os.cpu_count(), initializer=begin) as pool:
            faults = [fault for fault in pool.map(fault_in, works) if fault]
        more = f"\n    and {len(faults) - 1} more" if len(faults) > 1 else ""
        return faults and faults[0] + "".join(f"\n    {fault}" for fault in faults[1:10]) + more

    test.__name__ = fault_of.__name__.replace("fault_of_", "random_")
    return test


TESTS = [first_fault(fault_of_text, 4000), first_fault(fault_of_filter, 4000), first_fault(fault_of_session, 100), first_fault(fault_of_words, 1000)]


def main():
    global GIVEN
    options = argparse.ArgumentParser(description=__doc__.splitlines()[0])
    options.add_argument("program")
    options.add_argument("--times", type=int, default=1)
    options.add_argument("--first", type=int, default=1)
    GIVEN = options.parse_args()
    _, failed = run_tests("hostile.py", "hostile use", TESTS, str(pathlib.Path(GIVEN.program).resolve()))
    sys.exit(1 if failed else 0)


if __name__ == "__main__":
    main()
