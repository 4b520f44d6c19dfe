#!/usr/bin/env python3
"""Tests of sessions (`jql --live`) that take more than one command: pipes, long lines, files and random scripts.

    tests/live.py PROGRAM [--scripts N]

Each test is a function that answers what was wrong, nothing where all was well. Then N random scripts follow (1000, those
of tests/random_scripts.py with seed 1). The last line is 'N passed, M failed'.
"""
import argparse
import contextlib
import os
import pathlib
import random
import re
import resource
import select
import subprocess
import sys
import tempfile
import threading
import time

from program import SECONDS, read_within, run_tests, send, start, talk
from random_scripts import answers_of, compare, followed

LONGEST_LINE, MOST_INPUTS, MIB = 16_777_216, 1_000_000, 1 << 20
ROOM = 100 * MIB  # the most memory of a session that keeps nothing but a line


@contextlib.contextmanager
def started(program, *words, **streams):
    """A session, killed where its test ends first or takes too long."""
    process = start(program, "--live", *words, **streams)
    watch = threading.Timer(2 * SECONDS, process.kill)
    watch.start()
    with process:
        try:
            yield process
        finally:
            watch.cancel()
            process.kill()


def ask(process, given, want):
    """Sends bytes and waits for an answer, with the input still open."""
    send(process, given)
    got = read_within(process.stdout, len(want))
    if got != want:
        raise ValueError(f"after {given[:60]!r} wanted {want[:60]!r} before more is sent, got {got[:60]!r}")


def is_silent(process, seconds=0.2):
    """Whether nothing is answered for a while."""
    return not select.select([process.stdout], [], [], seconds)[0]


def end_of(process):
    """What a session writes after its input ends, and its status."""
    out, told = process.communicate(timeout=SECONDS)
    return out, told, process.returncode


def differ(got, want):
    return got != want and f"wanted {want}, got {got}"


# ---- clients that wait


def each_answer_comes_before_the_next_line(program):
    turns = [
        (b"append 1\n", b"ok 0\n"),
        (b"show\n", b"out 2\n1\n"),
        (b"insert 0 {}\n", b"ok 0\n"),
        (b"errors\n", b"err 0\n"),
        (b"hello\n", b"refused 0\n"),
        (b"\n", b"refused 0\n"),
        (b"remove 2\n", b"refused 20\n"),
        (b"append [\n", b"refused 21\n"),
        (b"status\n", b"status 0\n"),
        (b"show\n", b"out 5\n{}\n1\n"),
        (b"move 0 1\n", b"ok 0\n"),
        (b"move 0 2\n", b"refused 20\n"),
        (b"filter type\n", b"ok 0\n"),
        (b"filter type)\n", b"refused 11\n"),
        (b"show\n", b"out 18\n\"number\"\n\"object\"\n"),
    ]
    return talk(program, ["--live", "-c", "."], turns)


def a_line_in_two_writes(program):
    with started(program, "-c", ".") as process:
        for first, second, want in [(b"app", b"end [1,2]\n", b"ok 0\n"), (b"show", b"\n", b"out 6\n[1,2]\n"), (b"remove 0", b"0\n", b"ok 0\n")]:
            send(process, first)
            if not is_silent(process):
                return f"answered after {first!r}, which no newline ends"
            ask(process, second, want)
    return None


def several_lines_in_one_write(program):
    with started(program, "-c", ".") as process:
        ask(process, b"append 1\nappend 2\nshow\nstat", b"ok 0\nok 0\nout 4\n1\n2\n")
        if not is_silent(process):
            return "answered a line that no newline ends"
        ask(process, b"us\nshow\n", b"status 0\nout 4\n1\n2\n")
        send(process, b"show")
        return differ(end_of(process), (b"out 4\n1\n2\n", b"", 0))


def a_client_that_cuts_its_lines_anywhere(program):
    """300 edits, each sent in up to three writes, and each answered before the next one."""
    rng, numbers = random.Random(1), []
    with started(program, "-s", "add") as process:
        for turn in range(300):
            place, number = rng.randrange(len(numbers) + 1), rng.randrange(1000)
            numbers.insert(place, number)
            shown = b"%d\n" % sum(numbers)
            for line, want in [(b"insert %d %d\n" % (place, number), b"ok 0\n"), (b"show\n", b"out %d\n" % len(shown) + shown)]:
                cuts = sorted(rng.randrange(len(line)) for _ in range(rng.randrange(3)))
                for at, end in zip([0, *cuts], cuts):
                    send(process, line[at:end])
                ask(process, line[cuts[-1] if cuts else 0 :], want)
        return differ(end_of(process), (b"", b"", 0))


def more_bytes_than_a_pipe_holds(program):
    """A client that reads exactly the bytes that an answer tells finds the next answer right after them."""
    with started(program, "-j", '"a\\nb" * .') as process:
        ask(process, b"append 400000\n", b"ok 0\n")
        for _ in range(3):
            ask(process, b"show\n", b"out 1200000\n" + b"a\nb" * 400_000)
            ask(process, b"status\n", b"status 0\n")
        return differ(end_of(process), (b"", b"", 0))


def an_edit_that_changes_more_bytes_than_a_pipe_holds(program):
    """The answer to an edit is followed by the next one where its splices end."""
    with started(program, "--follow", "-j", '"a\\nb" * .') as process:
        for _ in range(3):
            ask(process, b"append 400000\n", b"ok 0\nout 0 0 1200000\n" + b"a\nb" * 400_000 + b"err 0 0 0\n")
            ask(process, b"append 1\n", b"ok 0\nout 1200000 0 3\na\nberr 0 0 0\n")
            ask(process, b"remove 0\n", b"ok 0\nout 0 1200000 0\nerr 0 0 0\n")
            ask(process, b"remove 0\n", b"ok 0\nout 0 3 0\nerr 0 0 0\n")
            ask(process, b"append 400000\nmove 0 0\n", b"ok 0\nout 0 0 1200000\n" + b"a\nb" * 400_000 + b"err 0 0 0\nok 0\nout 0 1200000 0\nerr 0 0 0\nout 0 0 1200000\n" + b"a\nb" * 400_000 + b"err 0 0 0\n")
            ask(process, b"filter empty\n", b"ok 0\nout 0 1200000 0\nerr 0 0 0\n")
            ask(process, b'filter "a\\nb" * .\n', b"ok 0\nout 0 0 1200000\n" + b"a\nb" * 400_000 + b"err 0 0 0\n")
            ask(process, b"remove 0\n", b"ok 0\nout 0 1200000 0\nerr 0 0 0\n")
        return differ(end_of(process), (b"", b"", 0))


def a_client_that_reads_late(program):
    """Answers wait where nobody reads them, and none is lost."""
    with started(program, '"x" * 1000') as process:
        send(process, b"append 1\n")
        writer = threading.Thread(target=lambda: (process.stdin.write(b"show\n" * 500), process.stdin.close()))
        writer.start()
        time.sleep(0.5)
        want = b"ok 0\n" + (b"out 1003\n" + b'"' + b"x" * 1000 + b'"\n') * 500
        got = read_within(process.stdout, len(want) + 1)
        writer.join(SECONDS)
        return (got != want or process.wait(SECONDS) != 0) and f"{len(got)} bytes of {len(want)}, status {process.returncode}"


def a_reader_that_goes_away(program):
    """After the reader of the answers is gone the next answer ends the program, with the input still open."""
    with started(program, ".") as process:
        ask(process, b"append 1\n", b"ok 0\n")
        process.stdout.close()
        send(process, b"show\n")
        told = read_within(process.stderr, 1000)
        return differ((told, process.wait(SECONDS)), (b"jq: error: write fault\n", 2))


def an_output_that_nobody_reads_is_not_missed(program):
    """Only answers are written: where no line comes, a closed output is no fault."""
    with started(program, ".", stdin=subprocess.DEVNULL) as process:
        process.stdout.close()
        told = process.stderr.read()
        return differ((told, process.wait(SECONDS)), (b"", 0))


def an_output_without_room(program):
    """Where an output file can take no more bytes, it has the first bytes of the answers, and the write fault ends the session."""
    told = b'jq: error: Cannot index number with "a"\n'
    return (
        fault_without_room(program, [], b"show\nerrors\n", b"out 6\n12345\nerr 40\n" + told)
        or fault_without_room(program, ["--follow"], b'insert 1 2\nreplace 2 {"a":6}\n', b"ok 5\nout 0 0 0\nerr 40 0 40\n" + told + b"ok 5\nout 0 6 2\n6\nerr 80 0 0\n")
        or fault_without_room(program, ["--follow"], b"move 0 1\n", b"ok 5\nout 0 0 0\nerr 0 40 0\nout 6 0 0\nerr 0 0 40\n" + told)
        or fault_without_room(program, ["--follow"], b"filter .[0]?, 7\n", b"ok 0\nout 0 6 4\n7\n7\nerr 0 40 0\n")
    )


def fault_without_room(program, words, script, answers):
    """What is wrong where there is room for some bytes of these answers, for each number of bytes."""
    with tempfile.TemporaryDirectory() as folder:
        pathlib.Path(folder, "a").write_text('1 {"a":12345}')
        for room in range(len(answers) + 1):
            with tempfile.TemporaryFile() as output:
                # SIGXFSZ stays ignored, as it is here, so a write past the limit fails
                limit = lambda: resource.setrlimit(resource.RLIMIT_FSIZE, (room, room))
                with started(program, *words, ".a", "a", cwd=folder, stdout=output, preexec_fn=limit, restore_signals=False) as process:
                    _, told = process.communicate(script, timeout=SECONDS)
                output.seek(0)
                got = output.read(), told, process.returncode
            want = (answers, b"", 0) if room == len(answers) else (answers[:room], b"jq: error: write fault\n", 2)
            if got != want:
                return f"room for {room} bytes: wanted {want}, got {got}"
    return None


# ---- long lines


def peak(process):
    """The most memory that a running process has had, in bytes (of Linux)."""
    told = pathlib.Path(f"/proc/{process.pid}/status").read_text()
    return int(re.search(r"VmHWM:\s*(\d+) kB", told)[1]) * 1024


def send_long(process, front, size, back):
    """Sends a line of this size in pieces: its front, as many letters `a` as it takes, and its back."""
    left = size - len(front) - len(back)
    send(process, front)
    while left > 0:
        send(process, b"a" * min(left, MIB))
        left -= MIB
    send(process, back)


def lines_of_the_greatest_length(program):
    """A line of 16,777,216 bytes is looked at, and one byte more is refused unseen: no text is read where there is no place."""
    with started(program, "length") as process:
        for extra, want in [(0, b"refused 20\n"), (1, b"refused 0\n"), (-1, b"refused 20\n")]:
            send_long(process, b"replace 0 ", LONGEST_LINE + extra, b"")
            ask(process, b"\n", want)
        send_long(process, b"replace 0 ", LONGEST_LINE, b"")
        if (got := end_of(process)) != (b"refused 20\n", b"", 0):
            return f"a last line at the limit: {got}"
    with started(program, "length") as process:
        send_long(process, b"replace 0 ", LONGEST_LINE + 1, b"")
        return differ(end_of(process), (b"refused 0\n", b"", 0))


def the_longest_texts_of_lines(program):
    """A line of 16,777,216 bytes is served."""
    with started(program, "length") as process:
        send_long(process, b'append "', LONGEST_LINE, b'"')
        ask(process, b"\n", b"ok 0\n")
        send_long(process, b'append "', LONGEST_LINE + 1, b'"')
        ask(process, b"\n", b"refused 0\n")
        ask(process, b"show\n", b"out 9\n16777207\n")
        send_long(process, b'replace 0 "', LONGEST_LINE, b'"')
        return differ(end_of(process), (b"ok 0\n", b"", 0))


def the_longest_filters_of_lines(program):
    """A filter that makes a line of 16,777,216 bytes is taken, and one byte more is refused unseen."""
    with started(program, ".") as process:
        ask(process, b"append 1\n", b"ok 0\n")
        send_long(process, b"filter . + 1 #", LONGEST_LINE, b"")
        ask(process, b"\n", b"ok 0\n")
        send_long(process, b"filter . + 2 #", LONGEST_LINE + 1, b"")
        ask(process, b"\n", b"refused 0\n")
        ask(process, b"show\n", b"out 2\n2\n")
        send_long(process, b"filter .", LONGEST_LINE, b"\xff")
        ask(process, b"\n", b"refused 10\n")
        return differ(end_of(process), (b"", b"", 0))


def long_lines_take_little_memory(program):
    """A line one byte over the limit, and one of 256 MiB: both are refused, the next line is served, and memory is bounded."""
    with started(program, ".") as process:
        for size in (LONGEST_LINE + 1, 256 * MIB):
            send_long(process, b"append ", size, b"")
            ask(process, b"\n", b"refused 0\n")
            ask(process, b"status\n", b"status 0\n")
        taken = peak(process)
        ask(process, b"append 1\nshow\n", b"ok 0\nout 2\n1\n")
        return taken > ROOM and f"{taken / MIB:.0f} MiB"


# ---- files


def told_at_once(program, words, files=()):
    """What a session with a long script at hand tells and its status, and how many bytes of the script it read."""
    with tempfile.TemporaryDirectory() as folder, tempfile.TemporaryFile() as script:
        for name, pieces in dict(files).items():
            with open(pathlib.Path(folder, name), "wb") as file:
                file.writelines(pieces)
        script.write(b"show\n" * 1000)
        script.seek(0)
        done = subprocess.run([program, "--live", *words], stdin=script, capture_output=True, timeout=SECONDS, cwd=folder)
        return done.stdout, done.stderr, done.returncode, os.lseek(script.fileno(), 0, os.SEEK_CUR)


def a_script_is_not_read_where_it_cannot_be_served(program):
    wants = [
        (["1 +", "a"], b"jq: error: syntax error\n", 3),
        (["inputs"], b"jq: error: inputs needs -n\n", 3),
        (["-n", "-s", "."], b"jq: error: usage\n", 2),
        (["--argjson", "x", "1.5", "."], b"jq: error: usage\n", 2),
        ([".", "a", "b"], b"jq: error: input at byte 2: malformed text\n", 2),
        (["-n", "1", "a", "b"], b"jq: error: input at byte 2: malformed text\n", 2),
        ([".", "a", "missing"], b"jq: error: read fault\n", 2),
        (["-n", "1", "missing"], b"jq: error: read fault\n", 2),
    ]
    for words, line, status in wants:
        got = told_at_once(program, words, {"a": [b"1 "], "b": [b"] 2"]})
        if got != (b"", line, status, 0):
            return f"{words}: wanted {line!r}, status {status} and nothing read, got {got}"
    got = told_at_once(program, [".", "a"], {"a": [b"1 "]})
    return differ(got, (b"out 2\n1\n" * 1000, b"", 0, 5000))


def files_are_read_before_the_script(program):
    """The first inputs are those of all files as they were at the start, and edits change no file."""
    with tempfile.TemporaryDirectory() as folder:
        path = pathlib.Path(folder, "a")
        path.write_text("1 2")
        with started(program, "-c", "-s", ".", "a", "a", cwd=folder) as process:
            ask(process, b"show\n", b"out 9\n[1,21,2]\n")
            path.write_text("7")
            ask(process, b"append 3\nshow\n", b"ok 0\nout 11\n[1,21,2,3]\n")
        return path.read_text() != "7" and "the file was changed"


def changes_among_a_thousand_inputs(program):
    """The greatest of 1,000 inputs, after a change that leaves it as it is and one that does not."""
    with tempfile.TemporaryDirectory() as folder:
        pathlib.Path(folder, "a").write_text("9\n" * 100 + "3\n" * 900)
        with started(program, "-n", "reduce inputs as $x (0; [., $x] | max)", "a", cwd=folder) as process:
            ask(process, b"replace 990 4\n", b"ok 0\n")
            ask(process, b"show\n", b"out 2\n9\n")
            ask(process, b"replace 990 10\nshow\n", b"ok 0\nout 3\n10\n")
            ask(process, b"move 990 0\nshow\n", b"ok 0\nout 3\n10\n")
            ask(process, b"replace 0 9\nmove 999 0\nmove 0 500\nshow\n", b"ok 0\nok 0\nok 0\nout 2\n9\n")
    return None


# Options, and filters that take turns under them.
FOLLOWED = [
    (["-c"], [".", "[., .]"]),
    ([], [". as $x | if $x % 3 == 0 then error else $x end", "if . == 77 then halt_error(1) else . end", ". * 2"]),
    (["-n"], ["foreach inputs as $x (0; . + $x)", "foreach inputs as $x (null; $x)", "7, error"]),
    (["-n"], ["reduce inputs as $x (0; [., $x] | max) | ., error", "[limit(3; inputs)]", "inputs"]),
    (["-n"], ["foreach inputs as $x (0; . + 1; if $x == 77 then error else select(. % 2 == 0) end)", "reduce inputs as $x ([]; [$x] + .[:70])"]),
    (["-s"], ["add, .[0]", "length, .[999]"]),
]


def a_change(rng, filters):
    """A line that changes a session over about 1,000 numbers."""
    number = rng.choice([77, *range(70)])
    lines = [f"insert {rng.randrange(970)} {number}", f"replace {rng.randrange(970)} {number}", f"remove {rng.randrange(970)}", f"append {number}"]
    lines += [f"move {rng.randrange(970)} {rng.randrange(970)}"] * 2
    return f"filter {rng.choice(filters)}" if rng.random() < 0.1 else rng.choice(lines)


def clients_follow_changes_of_many_inputs(program):
    """Edits of 1,000 inputs, and other filters: after each of them the client that applies the splices has what `show` and `errors`
    answer."""
    rng = random.Random(3)
    with tempfile.TemporaryDirectory() as folder:
        pathlib.Path(folder, "a").write_text("\n".join(str(rng.randrange(70)) for _ in range(1000)))
        for options, filters in FOLLOWED:
            words, lines = [*options, filters[0]], [a_change(rng, filters) for _ in range(90)]
            script = "show\nerrors\n" + "".join(f"{line}\nshow\nerrors\n" for line in lines)
            with started(program, "--follow", *words, "a", cwd=folder) as process:
                out, told = process.communicate(script.encode(), timeout=SECONDS)
            answers = answers_of(out, follow=True)
            if told or process.returncode or len(answers) != 3 * len(lines) + 2:
                return f"{words}: {len(answers)} answers, {told!r}, status {process.returncode}"
            client = [answers[0][2], answers[1][2]]
            for line, edit, output, errors in zip(lines, answers[2::3], answers[3::3], answers[4::3]):
                client = followed(client, edit[2])
                if client != [output[2], errors[2]]:
                    return f"{words}: after {line!r} the client has other bytes"
    return None


def a_million_inputs_and_no_more(program):
    texts, last = [b"1\n" * 1000] * (MOST_INPUTS // 1000), MOST_INPUTS - 1
    with tempfile.TemporaryDirectory() as folder:
        with open(pathlib.Path(folder, "a"), "wb") as file:
            file.writelines(texts)
        with started(program, "-n", "7", "a", cwd=folder) as process:
            ask(process, b"append 1\n", b"refused 22\n")
            ask(process, b"insert 0 x\n", b"refused 22\n")
            ask(process, b"insert %d x\n" % (last + 1), b"refused 22\n")
            ask(process, b"insert %d x\n" % (last + 2), b"refused 20\n")
            ask(process, b"replace %d x\n" % last, b"refused 21\n")
            ask(process, b"replace %d x\n" % (last + 1), b"refused 20\n")
            ask(process, b"remove %d\n" % last, b"ok 0\n")
            ask(process, b"append x\n", b"refused 21\n")
            ask(process, b"append 1\n", b"ok 0\n")
            ask(process, b"append 1\nreplace %d 2\n" % last, b"refused 22\nok 0\n")
            ask(process, b"remove 0\ninsert %d 1\n" % (last + 1), b"ok 0\nrefused 20\n")
            ask(process, b"insert %d 1\nappend 1\nshow\n" % last, b"ok 0\nrefused 22\nout 2\n7\n")
            ask(process, b"move 0 %d\nmove %d 0\nmove %d 0\nmove 0 %d\n" % (last, last, last + 1, last + 1), b"ok 0\nok 0\nrefused 20\nrefused 20\n")
            ask(process, b"filter 8\nappend 1\nshow\n", b"ok 0\nrefused 22\nout 2\n8\n")
    for more, line in [(b"1", b"too many inputs"), (b"1 ]", b"input at byte %d: malformed text" % (2 * MOST_INPUTS + 2))]:
        got = told_at_once(program, ["-n", "7", "a"], {"a": [*texts, more]})
        if got != (b"", b"jq: error: " + line + b"\n", 2, 0):
            return f"with {more} after them: got {got}"
    return None


TESTS = [
    each_answer_comes_before_the_next_line,
    a_line_in_two_writes,
    several_lines_in_one_write,
    a_client_that_cuts_its_lines_anywhere,
    more_bytes_than_a_pipe_holds,
    an_edit_that_changes_more_bytes_than_a_pipe_holds,
    a_client_that_reads_late,
    a_reader_that_goes_away,
    an_output_that_nobody_reads_is_not_missed,
    an_output_without_room,
    lines_of_the_greatest_length,
    the_longest_texts_of_lines,
    the_longest_filters_of_lines,
    long_lines_take_little_memory,
    a_script_is_not_read_where_it_cannot_be_served,
    files_are_read_before_the_script,
    changes_among_a_thousand_inputs,
    clients_follow_changes_of_many_inputs,
    a_million_inputs_and_no_more,
]


def main():
    options = argparse.ArgumentParser(description=__doc__.splitlines()[0])
    options.add_argument("program")
    options.add_argument("--scripts", type=int, default=1000)
    given = options.parse_args()
    program = str(pathlib.Path(given.program).resolve())
    counts = [run_tests("live.py", "tests of sessions", TESTS, program), compare(program, given.scripts, 1)]
    passed, failed = (sum(column) for column in zip(*counts))
    print(f"sessions: {passed} passed, {failed} failed")
    sys.exit(1 if failed else 0)


if __name__ == "__main__":
    main()
