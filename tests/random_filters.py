#!/usr/bin/env python3
"""Compares the program with tests/reference.py on filters that are put together at random from a seed.

    tests/random_filters.py [--program ./jql] [--count 200] [--seed 1]

Each filter runs on a few inputs through both, and output, error lines and status must agree. A filter that they differ on
is printed with what each wrote. The same seed gives the same filters. The last line is 'N passed, M failed'.
"""
import argparse
import concurrent.futures
import os
import pathlib
import random
import subprocess
import sys

HERE = pathlib.Path(__file__).resolve().parent
SECONDS = 60
INPUTS = '{"a":[1,{"b":null}],"b":"xay","c":{"a":2}} [3,[1,"a"],{"a":false,"b":5},null] 7 "a,b" null'

LITERALS = ["null", "true", "false", "0", "1", "2", "-1", '"a"', '"b"', '""', "[]", "{}", "[1,2]", '{"a":1}', '"a,b"', '[["a",1]]']
STEPS = [".", ".", ".a", ".b", ".c.a", ".[0]", ".[-1]", ".[]", ".[1:]", ".[:2]", "..", '."b"', ".a?", ".[]?", ".[0]?", ".[1:]?"]
NATIVES = (
    "length utf8bytelength keys type not tostring tojson tonumber fromjson explode implode reverse flatten transpose sort unique min"
    " max add any all first last paths leaf_paths to_entries from_entries values scalars numbers strings arrays objects iterables"
    " ascii_upcase error recurse empty halt halt_error tojson @text @json @csv @tsv @html @uri @sh @base64"
).split()
CALLS = (
    "has(F) contains(F) inside(F) in(F) split(F) join(F) startswith(F) endswith(F) ltrimstr(F) rtrimstr(F) indices(F) index(F)"
    " rindex(F) flatten(F) getpath(F) delpaths([[F]]) setpath([F];F) range(N) range(N;N) range(N;N;N) select(F) map(F)"
    " map_values(F) sort_by(F) group_by(F) unique_by(F) min_by(F) max_by(F) with_entries(F) walk(F) path(P) paths(F) del(P) pick(P)"
    " first(F) last(F) nth(N;F) limit(N;F) isempty(F) any(F) all(F) any(F;F) all(F;F) IN(F) IN(F;F) error(F) halt_error(N) recurse(F;false)"
    " limit(3;repeat(F)) limit(3;recurse(F)) limit(3;while(F;F)) first(until(true;F)) to_entries[F]? _sort_by([F])"
).split()
BINARY = "+ - * / % == != < <= > >= and or // , |".split()
UPDATES = "= |= += -= *= //= %= /=".split()


class Maker:
    """Makes filters of a size from a stream of random numbers."""

    def __init__(self, rng):
        self.rng, self.names = rng, []

    def filled(self, form, size):
        out = []
        for letter in form:
            part = {"F": self.filter, "P": self.path, "N": lambda _: self.rng.choice(["0", "1", "2", "3", "-1", "(1,2)", "length?"])}
            out.append(part[letter](size // 2) if letter in part and letter.isupper() else letter)
        return "".join(out)

    def call(self, size):
        form = self.rng.choice(CALLS)
        if form.startswith("IN("):
            return "IN" + self.filled(form[2:], size)
        return self.filled(form, size)

    def path(self, size):
        if size <= 1 or self.rng.random() < 0.3:
            return self.rng.choice(STEPS)
        form = self.rng.choice(
            ["P|P", "P,P", "(P)[F]", "P//P", "P|select(F)", "first(P)", "getpath([F])", "if F then P else P end", "(P)?", "P|..", "P[N:N]"]
        )
        return "(" + self.filled(form, size - 1) + ")"

    def filter(self, size):
        if size <= 1:
            return self.rng.choice([*STEPS, *LITERALS, *LITERALS, *NATIVES, *(f"${n}" for n in self.names)])
        makers = [self.binary, self.binary, self.pipe, self.call, self.call, self.control, self.control, self.fold, self.binding, self.made, self.update]
        return self.rng.choice(makers)(size - 1)

    def binary(self, size):
        left, right = self.filter(size // 2), self.filter(size // 2)
        return f"({left} {self.rng.choice(BINARY)} {right})"

    def pipe(self, size):
        return f"({self.filter(size // 2)} | {self.filter(size // 2)})"

    def control(self, size):
        form = self.rng.choice(
            [
                "(try F catch F)",
                "(F)?",
                "(if F then F else F end)",
                "(if F then F end)",
                "(label $l | F, (F | break $l), F)",
                "(label $l | F | if F then break $l else . end)",
                "(def f: F; F | f)",
                "(def f(g): F | g; f(F))",
                "(def f($v; g): [$v, g]; f(F; F))",
                "(-F)",
                "(F)[F]",
                "(F)[N:N]",
                "(F)[]?",
            ]
        )
        return self.filled(form, size)

    def fold(self, size):
        form = self.rng.choice(
            ["(reduce (F) as $w (F; F))", "(reduce F? as [$w] (F; [., $w]))", "(foreach (F) as $w (F; F))", "(foreach (F) as $w (F; F; [$w, .]))"]
        )
        self.names.append("w")
        made = self.filled(form, size).replace("as $w (", "as $w (", 1)
        self.names.pop()
        return f"(null as $w | {made})"

    def binding(self, size):
        source, pattern = self.filter(size // 2), self.rng.choice(["$x", "[$x]", "{a: $x}", "{$x}", "[[$x]]", '{"a": [$x]}', "{(F): $x}"])
        pattern = self.filled(pattern, 1)
        self.names.append("x")
        body = self.filter(size // 2)
        self.names.pop()
        return f"(({source}) as {pattern} | {body})"

    def made(self, size):
        form = self.rng.choice(["[F]", "[F, F]", "{a: (F)}", "{a, b: (F)}", '{"x\\(F)": (F)}', "{(F): (F)}", '"<\\(F)|\\(F)>"', '@json "\\(F)"', "[F | F]"])
        return self.filled(form, size)

    def update(self, size):
        return f"({self.path(size // 2)} {self.rng.choice(UPDATES)} ({self.filter(size // 2)}))"


def run(program, text):
    try:
        done = subprocess.run([program, "-c", "--depth", "60", "--", text], input=INPUTS.encode(), capture_output=True, timeout=SECONDS)
    except subprocess.TimeoutExpired:
        return "no end"
    return done.stdout.decode(), done.stderr.decode(), done.returncode


def main():
    options = argparse.ArgumentParser(description=__doc__.splitlines()[0])
    options.add_argument("--program", default=str(HERE.parent / "jql"))
    options.add_argument("--count", type=int, default=200)
    options.add_argument("--seed", type=int, default=1)
    given = options.parse_args()
    rng = random.Random(given.seed)
    texts = [Maker(rng).filter(rng.choice([2, 3, 5, 8, 13])) for _ in range(given.count)]

    def both(text):
        return run(given.program, text), run(str(HERE / "reference.py"), text)

    failed = 0
    with concurrent.futures.ThreadPoolExecutor(os.cpu_count()) as pool:
        for text, (ours, theirs) in zip(texts, pool.map(both, texts)):
            if ours != theirs and "no end" not in (ours, theirs):
                failed += 1
                print(f"FAILED {text}\n    program:   {ours}\n    reference: {theirs}", flush=True)
    print(f"{given.count - failed} passed, {failed} failed")
    sys.exit(1 if failed else 0)


if __name__ == "__main__":
    main()
