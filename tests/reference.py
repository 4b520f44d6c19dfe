#!/usr/bin/env python3
"""A plain, slow jql in Python, written from the manual alone, to compare the program with.

It takes the same words as `jql` and writes the same bytes. It shares no code with the program but the text of the prelude, and it is no model of
speed: each filter is a generator that follows the meaning of its form. `tests/random_filters.py` runs both on filters
that are put together at random, and `tests/run.py --program tests/reference.py` runs the cases of tests/ through it.
It writes no usage text of its own, since that is clap's.
"""
import base64
import functools
import io
import itertools
import os
import pathlib
import re
import sys
import threading

LEAST, GREATEST = -(2**63), 2**63 - 1
LONGEST_TEXT, DEEPEST_TEXT = 67_108_864, 127
LONGEST_REPEAT, GREATEST_INDEX = 268_435_456, 16_777_215


# ---- endings and faults


class Raised(Exception):
    """An error value that a filter raises."""

    def __init__(self, value):
        self.value = value


class Deep(Exception):
    """The limit of call depth."""


class Halt(Exception):
    """A halt: the status of the process, and the bytes for standard error."""

    def __init__(self, status, written):
        self.status, self.written = status, written


class Break(Exception):
    """A break to one activation of a label."""

    def __init__(self, level):
        self.level = level


class Refused(Exception):
    """A filter that is no program, with the words of its refusal."""


class Fault(Exception):
    """A text that cannot be read: its place and why."""

    def __init__(self, at, why):
        self.at, self.why = at, why


def fail(text):
    raise Raised(text)


# ---- values

KINDS = ["null", "boolean", "number", "string", "array", "object"]


def kind(v):
    if v is None:
        return "null"
    if isinstance(v, bool):
        return "boolean"
    return {int: "number", str: "string", list: "array", dict: "object"}[type(v)]


def rank(v):
    return {None: 0, False: 1, True: 2}[v] if v is None or isinstance(v, bool) else KINDS.index(kind(v)) + 1


def compare(a, b):
    if rank(a) != rank(b):
        return -1 if rank(a) < rank(b) else 1
    if isinstance(a, list):
        for x, y in zip(a, b):
            if found := compare(x, y):
                return found
        return (len(a) > len(b)) - (len(a) < len(b))
    if isinstance(a, dict):
        keys = sorted(a)
        if found := compare(keys, sorted(b)):
            return found
        return next((c for c in (compare(a[k], b[k]) for k in keys) if c), 0)
    if a is None or isinstance(a, bool):
        return 0
    return (a > b) - (a < b)


def same(a, b):
    return compare(a, b) == 0


by_order = functools.cmp_to_key(compare)


def whole(n):
    return n if LEAST <= n <= GREATEST else fail("result out of range")


NUMBER = re.compile(r"(-?)(0|[1-9][0-9]*)(?:\.([0-9]+))?(?:[eE]([+-]?[0-9]+))?\Z", re.ASCII)


def exact(sign, digits, fraction, exponent):
    """The whole number that the digits and the exponent give, or None."""
    d = int(digits + fraction)
    if d == 0:
        return 0
    q = int(exponent) - len(fraction)
    if q > 30:
        return None
    if q >= 0:
        n = d * 10**q
    elif -q > len(digits + fraction) or d % 10**-q:
        return None
    else:
        n = d // 10**-q
    n = -n if sign else n
    return n if LEAST <= n <= GREATEST else None


def number_text(text):
    found = NUMBER.match(text)
    return exact(found[1], found[2], found[3] or "", found[4] or "0") if found else None


# ---- texts

SPACE = b" \t\n\r"
BARE_END = SPACE + b'{}[],:"'


def end_of_text(data, at):
    """Where the text that begins at a place ends, None where the stream ends inside it."""
    depth, i, n = 0, at, len(data)
    if data[at] not in b'{["':
        while i < n and data[i] not in BARE_END:
            i += 1
            if i - at > LONGEST_TEXT:
                raise Fault(at, "text too long")
        return i
    while i < n:
        byte = data[i]
        if i - at >= LONGEST_TEXT:
            raise Fault(at, "text too long")
        i += 1
        if byte in b"{[":
            depth += 1
            if depth > DEEPEST_TEXT:
                raise Fault(at, "nested too deep")
        elif byte in b"}]":
            depth -= 1
        elif byte == 34:
            while i < n and data[i] != 34:
                i += 2 if data[i] == 92 else 1
            if i >= n:
                if n - at > LONGEST_TEXT:
                    raise Fault(at, "text too long")
                return None
            i += 1
            if i - at > LONGEST_TEXT:
                raise Fault(at, "text too long")
        if depth == 0:
            return i
    return None


STRING = re.compile(rb'"(?:[^"\\]|\\.)*"', re.S)


def read_one(data, at):
    """The value of one whole text."""
    for run in re.findall(rb"[^ \t\n\r{}\[\],:]+", STRING.sub(b" ", data)):
        text = run.decode("latin-1")
        if NUMBER.match(text) and number_text(text) is None:
            raise Fault(at, "number is not a 64-bit whole number")
    try:
        value, end = Reader(data.decode()).value(0)
    except (ValueError, IndexError):
        raise Fault(at, "malformed text") from None
    return value


ESCAPES = {"b": "\b", "f": "\f", "n": "\n", "r": "\r", "t": "\t", '"': '"', "\\": "\\", "/": "/"}


class Reader:
    """Reads a value of RFC 8259, a ValueError or IndexError where there is none."""

    def __init__(self, text):
        self.text = text

    def skip(self, i):
        while self.text[i] in " \t\n\r":
            i += 1
        return i

    def value(self, i):
        text, i = self.text, self.skip(i)
        for word, value in (("null", None), ("true", True), ("false", False)):
            if text.startswith(word, i):
                end = i + len(word)
                if end < len(text) and text[end] not in ' \t\n\r{}[],:"':
                    raise ValueError
                return value, end
        if text[i] == '"':
            return self.string(i)
        if text[i] == "[":
            return self.array(i + 1)
        if text[i] == "{":
            return self.object(i + 1)
        run = re.compile(r'[^ \t\n\r{}\[\],:"]+').match(text, i)
        found = run and number_text(run[0])
        if found is None:
            raise ValueError
        return found, run.end()

    def array(self, i):
        items, i = [], self.skip(i)
        if self.text[i] == "]":
            return items, i + 1
        while True:
            item, i = self.value(i)
            items.append(item)
            i = self.skip(i)
            if self.text[i] == "]":
                return items, i + 1
            if self.text[i] != ",":
                raise ValueError
            i += 1

    def object(self, i):
        pairs, i = {}, self.skip(i)
        if self.text[i] == "}":
            return pairs, i + 1
        while True:
            i = self.skip(i)
            if self.text[i] != '"':
                raise ValueError
            key, i = self.string(i)
            i = self.skip(i)
            if self.text[i] != ":":
                raise ValueError
            pairs[key], i = self.value(i + 1)
            i = self.skip(i)
            if self.text[i] == "}":
                return pairs, i + 1
            if self.text[i] != ",":
                raise ValueError
            i += 1

    def string(self, i):
        out, i, text = [], i + 1, self.text
        while text[i] != '"':
            if text[i] < " ":
                raise ValueError
            if text[i] != "\\":
                out.append(text[i])
                i += 1
            elif text[i + 1] in ESCAPES:
                out.append(ESCAPES[text[i + 1]])
                i += 2
            else:
                part, i = unicode_escape(text, i)
                out.append(part)
        return "".join(out), i + 1


def unicode_escape(text, i):
    """The character of the escape at a place and where it ends, a ValueError where there is none."""

    def unit(i):
        found = re.compile(r"\\u([0-9a-fA-F]{4})").match(text, i)
        return int(found[1], 16) if found else None

    high = unit(i)
    if high is None or 0xDC00 <= high < 0xE000:
        raise ValueError
    if not 0xD800 <= high < 0xDC00:
        return chr(high), i + 6
    low = unit(i + 6)
    if low is None or not 0xDC00 <= low < 0xE000:
        raise ValueError
    return chr(0x10000 + ((high - 0xD800) << 10) + low - 0xDC00), i + 12


def texts_of(data, ended=True):
    """The values of a stream; a Fault where a text cannot be read. One that has not ended may go on in its last run."""
    i = 3 if data.startswith(b"\xef\xbb\xbf") else 0
    while True:
        while i < len(data) and data[i] in SPACE:
            i += 1
        if i == len(data):
            return
        if data[i] in b"}],:":
            raise Fault(i, "malformed text")
        end = end_of_text(data, i)
        if end is None or end == len(data) and not ended and data[i] not in b'{["':
            raise Fault(i, "unfinished text")
        yield read_one(data[i:end], i)
        i = end


def read_text(data):
    """The value of a string that holds exactly one text."""
    if data.startswith(b"\xef\xbb\xbf"):
        raise Fault(0, "malformed text")
    found = texts_of(data)
    for value in found:
        for _ in texts_or_malformed(found):
            raise Fault(0, "malformed text")
        return value
    raise Fault(len(data), "unfinished text")


def texts_or_malformed(found):
    try:
        yield from found
    except Fault:
        yield None


def quoted(text):
    names = {'"': '\\"', "\\": "\\\\", "\b": "\\b", "\f": "\\f", "\n": "\\n", "\r": "\\r", "\t": "\\t"}
    return '"' + "".join(names.get(c) or (f"\\u{ord(c):04x}" if c < " " else c) for c in text) + '"'


def printed(v, indent=None):
    """Compact text, or with an indent pretty text."""
    if v is None or isinstance(v, bool):
        return {None: "null", True: "true", False: "false"}[v]
    if isinstance(v, int):
        return str(v)
    if isinstance(v, str):
        return quoted(v)
    inner = None if indent is None else indent + 1
    if isinstance(v, list):
        marks, parts = "[]", [printed(item, inner) for item in v]
    else:
        colon = ":" if indent is None else ": "
        marks, parts = "{}", [quoted(k) + colon + printed(v[k], inner) for k in sorted(v)]
    if indent is None or not parts:
        return marks[0] + ",".join(parts) + marks[1]
    line = "\n" + "  " * inner
    return marks[0] + line + ("," + line).join(parts) + "\n" + "  " * indent + marks[1]


def to_string(v):
    return v if isinstance(v, str) else printed(v)


# ---- operators


def of_kinds(a, b, what):
    return fail(f"{kind(a)} and {kind(b)} cannot be {what}")


def add(a, b):
    if a is None:
        return b
    if b is None:
        return a
    if kind(a) == kind(b) == "number":
        return whole(a + b)
    if kind(a) == kind(b) and kind(a) in ("string", "array"):
        return a + b
    if kind(a) == kind(b) == "object":
        return a | b
    return of_kinds(a, b, "added")


def sub(a, b):
    if kind(a) == kind(b) == "number":
        return whole(a - b)
    if kind(a) == kind(b) == "array":
        return [x for x in a if not any(same(x, y) for y in b)]
    return of_kinds(a, b, "subtracted")


def merged(a, b):
    out = dict(a)
    for k, v in b.items():
        out[k] = merged(out[k], v) if isinstance(out.get(k), dict) and isinstance(v, dict) else v
    return out


def mul(a, b):
    if kind(a) == kind(b) == "number":
        return whole(a * b)
    if {kind(a), kind(b)} == {"number", "string"}:
        text, n = (a, b) if isinstance(a, str) else (b, a)
        if n < 1:
            return None
        if len(text.encode()) * n > LONGEST_REPEAT:
            fail("Repeat string result too long")
        return text * n if text else ""
    if kind(a) == kind(b) == "object":
        return merged(a, b)
    return of_kinds(a, b, "multiplied")


def div(a, b):
    if kind(a) == kind(b) == "number":
        if b == 0:
            fail("divisor is zero")
        if a % b:
            fail("quotient is not whole")
        return whole(a // b)
    if kind(a) == kind(b) == "string":
        return split(a, b)
    return of_kinds(a, b, "divided")


def rem(a, b):
    if kind(a) == kind(b) == "number":
        if b == 0:
            fail("divisor is zero")
        return -(-a % abs(b)) if a < 0 else a % abs(b)
    return of_kinds(a, b, "divided")


def split(a, b):
    if not isinstance(a, str) or not isinstance(b, str):
        fail("split input and separator must be strings")
    return [] if a == "" else list(a) if b == "" else a.split(b)


def neg(a):
    return whole(-a) if kind(a) == "number" else fail(f"{kind(a)} cannot be negated")


OPERATORS = {
    "+": add,
    "-": sub,
    "*": mul,
    "/": div,
    "%": rem,
    "==": same,
    "!=": lambda a, b: not same(a, b),
    "<": lambda a, b: compare(a, b) < 0,
    "<=": lambda a, b: compare(a, b) <= 0,
    ">": lambda a, b: compare(a, b) > 0,
    ">=": lambda a, b: compare(a, b) >= 0,
}


# ---- indexes and paths


def key_words(key):
    return quoted(key) if isinstance(key, str) else kind(key)


def no_index(v, key):
    return fail(f"Cannot index {kind(v)} with {key_words(key)}")


def is_bound(v):
    return v is None or kind(v) == "number"


def bounds(key, n):
    if not is_bound(key.get("start")) or not is_bound(key.get("end")):
        fail("Start and end indices of an array slice must be numbers")

    def place(b, otherwise):
        b = otherwise if b is None else b + n if b < 0 else b
        return min(max(b, 0), n)

    start = place(key.get("start"), 0)
    return start, max(place(key.get("end"), n), start)


def index(v, key):
    k = kind(key)
    if v is None and k in ("string", "number", "object"):
        return None
    if isinstance(v, dict) and k == "string":
        return v.get(key)
    if isinstance(v, list) and k == "number":
        place = key + len(v) if key < 0 else key
        return v[place] if 0 <= place < len(v) else None
    if isinstance(v, (list, str)) and k == "object":
        start, end = bounds(key, len(v))
        return v[start:end]
    return no_index(v, key)


def parts(v):
    """The keys and the items of a value."""
    if isinstance(v, list):
        return list(enumerate(v))
    if isinstance(v, dict):
        return [(k, v[k]) for k in sorted(v)]
    return fail(f"Cannot iterate over {kind(v)}")


def getpath(v, path):
    for key in path:
        if v is None:
            return None
        v = index(v, key)
    return v


def put(v, key, x):
    """The value with x at a key, which `index` takes."""
    k = kind(key)
    if v is None and k == "object":
        bounds(key, 0)
        v = []
    if isinstance(v, str) and k == "object":
        no_index(v, key)
    if isinstance(v, list) and k == "object":
        start, end = bounds(key, len(v))
        if not isinstance(x, list):
            fail("A slice of an array can only be assigned another array")
        return v[:start] + x + v[end:]
    if k == "string" and (v is None or isinstance(v, dict)):
        return {**(v or {}), key: x}
    if k == "number" and (v is None or isinstance(v, list)):
        v = list(v or [])
        if key > GREATEST_INDEX:
            fail("Array index too large")
        place = key + len(v) if key < 0 else key
        if place < 0:
            fail("Out of bounds negative array index")
        v += [None] * (place + 1 - len(v))
        v[place] = x
        return v
    return no_index(v, key)


def setpath(v, path, x):
    if not path:
        return x
    if v is None and isinstance(path[0], dict):
        bounds(path[0], 0)
    return put(v, path[0], setpath(index(v, path[0]), path[1:], x))


def places(v, path):
    """The places, as paths of keys and indexes from the front, that a path names."""
    if not path:
        return [()]
    key = path[0]
    if v is None:
        return []
    if isinstance(v, list) and isinstance(key, dict):
        start, end = bounds(key, len(v))
        if len(path) == 1:
            return [(i,) for i in range(start, end)]
        return [(start + p[0], *p[1:]) for p in places(v[start:end], path[1:])]
    if isinstance(v, str) and isinstance(key, dict):
        bounds(key, len(v))
        return no_index(v, key)
    part = index(v, key)
    if isinstance(key, int) and key < 0:
        key += len(v)
    there = key in v if isinstance(v, dict) else 0 <= key < len(v)
    return [(key, *p) for p in places(part, path[1:])] if there else []


def without(v, gone):
    """The value without the places."""
    if () in gone:
        return None
    inner = {}
    for place in gone:
        inner.setdefault(place[0], []).append(place[1:])
    kept = [(k, x) for k, x in (parts(v) if inner else []) if () not in inner.get(k, [])]
    if not inner:
        return v
    new = [(k, without(x, inner[k]) if k in inner else x) for k, x in kept]
    return dict(new) if isinstance(v, dict) else [x for _, x in new]


def delpaths(v, paths):
    gone = []
    for path in sorted(paths, key=by_order):
        gone += places(v, path)
    return without(v, gone) if gone else v


# ---- natives


def length(v):
    if v is None:
        return 0
    if isinstance(v, bool):
        return fail("boolean has no length")
    return whole(abs(v)) if isinstance(v, int) else len(v)


def utf8bytelength(v):
    return len(v.encode()) if isinstance(v, str) else fail(f"{kind(v)} has no UTF-8 length")


def keys(v):
    if not isinstance(v, (list, dict)):
        fail(f"{kind(v)} has no keys")
    return [k for k, _ in parts(v)]


def has(v, k):
    if isinstance(v, dict) and isinstance(k, str):
        return k in v
    if isinstance(v, list) and kind(k) == "number":
        return 0 <= k < len(v)
    return fail(f"Cannot check whether {kind(v)} has a {kind(k)} key")


def contained(a, b):
    if isinstance(a, str) and isinstance(b, str):
        return b in a
    if isinstance(a, list) and isinstance(b, list):
        return all(any(contained(x, y) for x in a) for y in b)
    if isinstance(a, dict) and isinstance(b, dict):
        return all(k in a and contained(a[k], b[k]) for k in b)
    return same(a, b)


def contains(a, b):
    if kind(a) != kind(b):
        fail(f"{kind(a)} and {kind(b)} cannot have their containment checked")
    return contained(a, b)


def tonumber(v):
    if kind(v) == "number":
        return v
    found = number_text(v) if isinstance(v, str) else None
    return fail(f"{kind(v)} cannot be parsed as a number") if found is None else found


def fromjson(v):
    if not isinstance(v, str):
        fail(f"{kind(v)} cannot be parsed as JSON")
    try:
        return read_text(v.encode())
    except Fault as fault:
        return fail("fromjson: " + fault.why)


def explode(v):
    return [ord(c) for c in v] if isinstance(v, str) else fail(f"{kind(v)} cannot be exploded")


def implode(v):
    good = isinstance(v, list) and all(kind(c) == "number" and 0 <= c < 0x110000 and not 0xD800 <= c < 0xE000 for c in v)
    return "".join(map(chr, v)) if good else fail("implode needs an array of code points")


def two_strings(name, a, b):
    if not isinstance(a, str) or not isinstance(b, str):
        fail(f"{name}() requires string inputs")


def startswith(a, b):
    two_strings("startswith", a, b)
    return a.startswith(b)


def endswith(a, b):
    two_strings("endswith", a, b)
    return a.endswith(b)


def ltrimstr(a, b):
    return a.removeprefix(b) if isinstance(a, str) and isinstance(b, str) else a


def rtrimstr(a, b):
    return a.removesuffix(b) if isinstance(a, str) and isinstance(b, str) else a


def letters(name, change):
    def native(v):
        if not isinstance(v, str):
            fail(f"{name} input must be a string")
        return "".join(change(c) if c.isascii() else c for c in v)

    return native


def keyed(what):
    """The pairs of key and item of an array, in a stable order by key."""

    def pairs(v, k):
        if not isinstance(v, list):
            fail(f"{kind(v)} {what}")
        if not isinstance(k, list) or len(k) != len(v):
            fail("keys do not match")
        return sorted(zip(k, v), key=lambda pair: by_order(pair[0]))

    return pairs


def groups(v, k):
    pairs = keyed("cannot be grouped, as it is not an array")(v, k)
    return [[x for _, x in group] for _, group in itertools.groupby(pairs, key=lambda pair: by_order(pair[0]))]


def least(v, k):
    pairs = keyed("has no least or greatest item")(v, k)
    return pairs[0][1] if pairs else None


def greatest(v, k):
    pairs = keyed("has no least or greatest item")(v, k)
    return pairs[-1][1] if pairs else None


def reverse(v):
    if v is None:
        return []
    return v[::-1] if isinstance(v, (str, list)) else fail(f"{kind(v)} cannot be reversed")


def flatten(v, d):
    if kind(d) != "number":
        fail("flatten depth must be a number")
    if d < 0:
        fail("flatten depth must not be negative")

    def opened(items, d):
        for item in items:
            if isinstance(item, list) and d > 0:
                yield from opened(item, d - 1)
            else:
                yield item

    return list(opened([x for _, x in parts(v)], d))


def indices(v, x):
    if v is None:
        return None
    if isinstance(v, str) and isinstance(x, str) or isinstance(v, list) and isinstance(x, list):
        return [i for i in range(len(v)) if x and i + len(x) <= len(v) and same(v[i : i + len(x)], x)]
    if isinstance(v, list):
        return [i for i, item in enumerate(v) if same(item, x)]
    return of_kinds(v, x, "searched")


def first_of(v, x):
    found = indices(v, x)
    return found[0] if found else None


def last_of(v, x):
    found = indices(v, x)
    return found[-1] if found else None


def transpose(v):
    if not isinstance(v, list) or not all(isinstance(row, list) for row in v):
        fail("transpose needs an array of arrays")
    return [list(column) for column in itertools.zip_longest(*v)]


def a_path(p):
    return p if isinstance(p, list) else fail("Path must be an array")


def del_native(v, ps):
    if not isinstance(ps, list) or not all(isinstance(p, list) for p in ps):
        fail("Paths must be an array of arrays")
    return delpaths(v, ps)


def raise_value(_, x):
    raise Raised(x)


NATIVES = {
    ("length", 0): length,
    ("utf8bytelength", 0): utf8bytelength,
    ("keys", 0): keys,
    ("keys_unsorted", 0): keys,
    ("has", 1): has,
    ("contains", 1): contains,
    ("type", 0): kind,
    ("not", 0): lambda v: v is None or v is False,
    ("tostring", 0): to_string,
    ("tojson", 0): printed,
    ("tonumber", 0): tonumber,
    ("fromjson", 0): fromjson,
    ("explode", 0): explode,
    ("implode", 0): implode,
    ("split", 1): split,
    ("startswith", 1): startswith,
    ("endswith", 1): endswith,
    ("ltrimstr", 1): ltrimstr,
    ("rtrimstr", 1): rtrimstr,
    ("ascii_downcase", 0): letters("ascii_downcase", str.lower),
    ("ascii_upcase", 0): letters("ascii_upcase", str.upper),
    ("_sort_by", 1): lambda v, k: [x for _, x in keyed("cannot be sorted, as it is not an array")(v, k)],
    ("_group_by", 1): groups,
    ("_unique_by", 1): lambda v, k: [group[0] for group in groups(v, k)],
    ("_min_by", 1): least,
    ("_max_by", 1): greatest,
    ("reverse", 0): reverse,
    ("flatten", 1): flatten,
    ("indices", 1): indices,
    ("index", 1): first_of,
    ("rindex", 1): last_of,
    ("transpose", 0): transpose,
    ("error", 1): raise_value,
    ("getpath", 1): lambda v, p: getpath(v, a_path(p)),
    ("setpath", 2): lambda v, p, x: setpath(v, a_path(p), x),
    ("delpaths", 1): del_native,
}
CORE = {("empty", 0), ("path", 1), ("range", 2), ("range", 3), ("inputs", 0), ("halt", 0), ("halt_error", 1)}


# ---- formats


def row(name, joined, text):
    def format_row(v):
        if not isinstance(v, list):
            fail(f"{kind(v)} cannot be {name}-formatted, only an array can be")
        fields = []
        for item in v:
            if isinstance(item, (list, dict)):
                fail(f"{kind(item)} is not valid in a {name} row")
            fields.append("" if item is None else text(item) if isinstance(item, str) else printed(item))
        return joined.join(fields)

    return format_row


def shell(v):
    def word(item):
        if isinstance(item, (list, dict)):
            fail(f"{kind(item)} can not be escaped for shell")
        return "'" + item.replace("'", "'\\''") + "'" if isinstance(item, str) else printed(item)

    return " ".join(map(word, v)) if isinstance(v, list) else word(v)


HTML = str.maketrans({"<": "&lt;", ">": "&gt;", "&": "&amp;", "'": "&#39;", '"': "&quot;"})
TSV = str.maketrans({"\n": "\\n", "\r": "\\r", "\t": "\\t", "\\": "\\\\"})
PLAIN = b"ABCDEFGHIJKLMNOPQRSTUVWXYZabcdefghijklmnopqrstuvwxyz0123456789-_.~"
FORMATS = {
    "text": to_string,
    "json": printed,
    "csv": row("csv", ",", lambda s: '"' + s.replace('"', '""') + '"'),
    "tsv": row("tsv", "\t", lambda s: s.translate(TSV)),
    "html": lambda v: to_string(v).translate(HTML),
    "uri": lambda v: "".join(chr(b) if b in PLAIN else f"%{b:02X}" for b in to_string(v).encode()),
    "sh": shell,
    "base64": lambda v: base64.b64encode(to_string(v).encode()).decode(),
}

# ---- tokens

RESERVED = set("def if then elif else end as reduce foreach try catch label break import include module and or __loc__".split())
TOKENS = re.compile(
    r"""(?P<name>[A-Za-z_][A-Za-z0-9_]*)
      | (?P<number>(?:[0-9]+(?:\.[0-9]*)?|\.[0-9]+)(?:[eE][+-]?[0-9]+)?)
      | \.(?P<field>[A-Za-z_][A-Za-z0-9_]*)
      | \$(?P<var>[A-Za-z_][A-Za-z0-9_]*)
      | @(?P<format>[A-Za-z0-9_]+)
      | (?P<symbol>!=|==|<=|>=|//=|//|\|=|\+=|-=|\*=|/=|%=|\.\.|[][<>=.(){}|,:;+\-*/%?])""",
    re.VERBOSE | re.ASCII,
)


def piece(text, i):
    """The characters of a string's piece from a place on, whether it ends the string, and where it ends."""
    out = []
    while i < len(text):
        c = text[i]
        if c == '"':
            return "".join(out), True, i + 1
        if c != "\\":
            out.append(c)
            i += 1
        elif text[i + 1 : i + 2] == "(":
            return "".join(out), False, i
        elif text[i + 1 : i + 2] in ESCAPES and i + 1 < len(text):
            out.append(ESCAPES[text[i + 1]])
            i += 2
        else:
            part, i = unicode_escape(text, i)
            out.append(part)
    raise ValueError


def tokens_of(text):
    """Pairs of a token's sort and its value, each with its place."""
    out, opened, i = [], [], 0

    def string(i, at):
        try:
            part, is_last, end = piece(text, i)
        except ValueError:
            raise Refused(f"bad token at byte {len(text[:at].encode())}") from None
        out.append(("piece", part, at))
        if not is_last:
            out.append(("open", "\\(", end))
            opened.append(True)
            end += 2
        return end

    while i < len(text):
        if text[i] in " \t\n\r":
            i += 1
            continue
        if text[i] == "#":
            i = text.find("\n", i)
            if i < 0:
                break
            continue
        if text[i] == '"':
            i = string(i + 1, i)
            continue
        found = TOKENS.match(text, i)
        sort = found.lastgroup if found else None
        value = found[sort] if found else None
        if sort == "number":
            value = literal_number(value)
        if value is None:
            raise Refused(f"bad token at byte {len(text[:i].encode())}")
        if sort == "symbol" and value == ")" and opened and opened.pop():
            out.append(("close", ")", i))
            i = string(i + 1, i + 1)
            continue
        if sort == "symbol" and value == "(":
            opened.append(False)
        out.append((sort, value, i))
        i = found.end()
    return out


def literal_number(text):
    found = re.fullmatch(r"([0-9]*)\.?([0-9]*)(?:[eE]([+-]?[0-9]+))?", text)
    return exact("", found[1], found[2], found[3] or "0")


def check_limits(tokens):
    if len(tokens) > 8192:
        raise Refused("more than 8192 tokens")
    depth = 0
    for sort, value, _ in tokens:
        if sort == "open" or sort == "symbol" and value in ("(", "[", "{"):
            depth += 1
        elif sort == "close" or sort == "symbol" and value in (")", "]", "}"):
            depth -= 1
        if depth > 256:
            raise Refused("more than 256 open brackets")


# ---- the parser: trees are tuples whose first item names the form

ASSIGNMENTS = ("=", "|=", "+=", "-=", "*=", "/=", "%=", "//=")
COMPARISONS = ("==", "!=", "<", "<=", ">", ">=")
IDENTITY = ("identity",)


class Parser:
    def __init__(self, tokens):
        self.tokens, self.i = tokens, 0

    def peek(self):
        return self.tokens[self.i][:2] if self.i < len(self.tokens) else ("end", None)

    def at(self):
        return self.tokens[self.i][2]

    def is_symbol(self, *values):
        return self.peek()[0] == "symbol" and self.peek()[1] in values

    def is_word(self, *words):
        return self.peek()[0] == "name" and self.peek()[1] in words

    def take(self):
        token = self.peek()
        self.i += 1
        return token

    def refuse(self):
        raise Refused("syntax error")

    def expect(self, value, sort="symbol"):
        if self.peek() != (sort, value):
            self.refuse()
        self.i += 1

    def try_symbol(self, *values):
        return self.take()[1] if self.is_symbol(*values) else None

    def try_word(self, *words):
        return self.take()[1] if self.is_word(*words) else None

    def a(self, sort):
        if self.peek()[0] != sort or sort == "name" and self.peek()[1] in RESERVED:
            self.refuse()
        return self.take()[1]

    def main(self):
        if self.i == len(self.tokens):
            return IDENTITY
        if self.is_word("def"):
            definition = self.definition()
            return ("def", *definition, self.main())
        tree = self.pipe()
        if self.i < len(self.tokens):
            self.refuse()
        return tree

    def definition(self):
        self.expect("def", "name")
        name, parameters = self.a("name"), []
        if self.try_symbol("("):
            while True:
                parameters.append((self.peek()[0] == "var", self.a("var" if self.peek()[0] == "var" else "name")))
                if not self.try_symbol(";"):
                    break
            self.expect(")")
        self.expect(":")
        body = self.pipe()
        self.expect(";")
        for is_value, parameter in reversed(parameters):
            if is_value:
                body = ("as", ("call", parameter, [], 0), ("var", parameter), body)
        return name, [parameter for _, parameter in parameters], body

    def pipe(self):
        opened, left = self.open_form()
        if opened:
            return opened
        left = self.alternative(left)
        while self.try_symbol(","):
            opened, start = self.open_form()
            if opened:
                return ("comma", left, opened)
            left = ("comma", left, self.alternative(start))
        if self.try_symbol("|"):
            return ("pipe", left, self.pipe())
        return left

    def open_form(self):
        """A form that reaches over the rest of the pipe, or else the term at this place, if there is one."""
        if self.is_word("def"):
            definition = self.definition()
            return ("def", *definition, self.pipe()), None
        if self.try_word("label"):
            name = self.a("var")
            self.expect("|")
            return ("label", name, self.pipe()), None
        if self.is_symbol("-") or self.is_word("try"):
            return None, None
        term = self.postfix()
        if not self.try_word("as"):
            return None, term
        pattern = self.pattern()
        self.expect("|")
        return ("as", term, pattern, self.pipe()), None

    def alternative(self, left=None):
        left = self.assignment(left)
        if self.try_symbol("//"):
            return ("alternative", left, self.alternative())
        return left

    def assignment(self, left):
        left = self.disjunction(left)
        if operator := self.try_symbol(*ASSIGNMENTS):
            return ("assign", operator, left, self.disjunction(None))
        return left

    def chain(self, left, words, below, make):
        left = below(left)
        while word := (self.try_word(*words) or self.try_symbol(*words)):
            left = make(word, left, below(None))
        return left

    def disjunction(self, left):
        return self.chain(left, ["or"], self.conjunction, lambda w, a, b: (w, a, b))

    def conjunction(self, left):
        return self.chain(left, ["and"], self.comparison, lambda w, a, b: (w, a, b))

    def comparison(self, left):
        left = self.sum(left)
        if operator := self.try_symbol(*COMPARISONS):
            return ("binary", operator, left, self.sum(None))
        return left

    def sum(self, left):
        return self.chain(left, ["+", "-"], self.product, lambda w, a, b: ("binary", w, a, b))

    def product(self, left):
        return self.chain(left, ["*", "/", "%"], self.unary, lambda w, a, b: ("binary", w, a, b))

    def unary(self, given):
        if given:
            return given
        if self.try_symbol("-"):
            return ("negate", self.unary(None))
        if self.try_word("try"):
            body = self.body()
            handler = self.body() if self.try_word("catch") else ("call", "empty", [], -1)
            return ("try", body, handler)
        return self.postfix()

    def body(self):
        return ("negate", self.body()) if self.try_symbol("-") else self.postfix()

    def postfix(self):
        tree = self.term()
        while True:
            if self.peek()[0] == "field":
                tree = ("index", tree, ("literal", self.take()[1]), False, "field")
            elif self.is_symbol(".") and self.i + 1 < len(self.tokens) and self.tokens[self.i + 1][0] == "piece":
                self.take()
                tree = ("index", tree, self.string(None), False, "key")
            elif self.is_symbol(".", "["):
                self.try_symbol(".")
                tree = self.bracket(tree)
            elif self.try_symbol("?"):
                if tree[0] in ("index", "slice", "each") and not tree[3]:
                    tree = (*tree[:3], True, *tree[4:])
                else:
                    tree = ("try", tree, ("call", "empty", [], -1))
            else:
                return tree

    def bracket(self, target):
        self.expect("[")
        if self.try_symbol("]"):
            return ("each", target, None, False)
        if self.try_symbol(":"):
            end = self.pipe()
            self.expect("]")
            return ("slice", target, (("literal", None), end), False)
        start = self.pipe()
        if self.try_symbol(":"):
            end = ("literal", None) if self.is_symbol("]") else self.pipe()
            self.expect("]")
            return ("slice", target, (start, end), False)
        self.expect("]")
        return ("index", target, start, False, "computed")

    def string(self, form):
        pieces, inner = [self.a("piece")], []
        while self.peek()[0] == "open":
            self.take()
            inner.append(self.pipe())
            self.expect(")", "close")
            pieces.append(self.a("piece"))
        return ("string", pieces, inner, form)

    def term(self):
        sort, value = self.peek()
        if sort in ("number", "name", "field", "format", "var"):
            return getattr(self, "term_" + sort)()
        if sort == "piece":
            return self.string(None)
        if sort != "symbol":
            self.refuse()
        self.take()
        if value == "..":
            return ("prelude", "recurse", [])
        if value == ".":
            if self.peek()[0] == "piece":
                return ("index", IDENTITY, self.string(None), False, "key")
            return IDENTITY
        if value == "(":
            tree = self.pipe()
            self.expect(")")
            return ("group", tree)
        if value == "[":
            tree = ("array", ("call", "empty", [], -1), True) if self.is_symbol("]") else ("array", self.pipe(), False)
            self.expect("]")
            return tree
        if value == "{":
            return self.object()
        return self.refuse()

    def term_number(self):
        return ("literal", self.take()[1])

    def term_var(self):
        at = self.at()
        return ("variable", self.take()[1], at)

    def term_field(self):
        return ("index", IDENTITY, ("literal", self.take()[1]), False, "field")

    def term_format(self):
        form = (self.at(), self.take()[1])
        return self.string(form) if self.peek()[0] == "piece" else ("format", form)

    def term_name(self):
        at, name = self.at(), self.take()[1]
        if name == "break":
            return ("break", self.a("var"), at)
        if name in ("reduce", "foreach"):
            return self.fold(name)
        if name == "if":
            return self.condition()
        if name in RESERVED:
            self.refuse()
        arguments = []
        if self.try_symbol("("):
            arguments.append(self.pipe())
            while self.try_symbol(";"):
                arguments.append(self.pipe())
            self.expect(")")
        if not arguments and name in ("null", "true", "false"):
            return ("literal", {"null": None, "true": True, "false": False}[name])
        return ("call", name, arguments, at)

    def fold(self, name):
        source = self.postfix()
        self.expect("as", "name")
        pattern = self.pattern()
        self.expect("(")
        filters = [self.pipe()]
        self.expect(";")
        filters.append(self.pipe())
        if name == "foreach":
            filters.append(self.pipe() if self.try_symbol(";") else IDENTITY)
        self.expect(")")
        return (name, source, pattern, *filters)

    def condition(self):
        test = self.pipe()
        self.expect("then", "name")
        yes = self.pipe()
        if self.try_word("elif"):
            return ("if", test, yes, self.condition())
        no = self.pipe() if self.try_word("else") else IDENTITY
        self.expect("end", "name")
        return ("if", test, yes, no)

    def object(self):
        entries = []
        if not self.is_symbol("}"):
            entries.append(self.entry())
            while self.try_symbol(","):
                entries.append(self.entry())
        self.expect("}")
        return ("object", entries)

    def entry(self):
        """A triple of a sort, a key's filter and a value's filter, None where the value is the part at the key."""
        sort, value = self.peek()
        if sort == "var":
            at = self.at()
            self.take()
            return "plain", ("literal", value), ("variable", value, at)
        if self.try_symbol("("):
            key = self.pipe()
            self.expect(")")
            self.expect(":")
            return "computed", key, self.entry_value()
        if sort == "name":
            self.take()
            own = ("index", IDENTITY, ("literal", value), False, "field")
            return "plain", ("literal", value), self.entry_value() if self.try_symbol(":") else own
        form = None
        if sort == "format":
            form = (self.at(), self.take()[1])
        key = self.string(form)
        is_plain = form is None and not key[2]
        return "plain" if is_plain else "computed", key, self.entry_value() if self.try_symbol(":") else None

    def entry_value(self):
        value = self.alternative()
        return ("pipe", value, self.entry_value()) if self.try_symbol("|") else value

    def pattern(self):
        if self.try_symbol("["):
            items = [self.pattern()]
            while self.try_symbol(","):
                items.append(self.pattern())
            self.expect("]")
            return ("items", items)
        if self.try_symbol("{"):
            entries = [self.pattern_entry()]
            while self.try_symbol(","):
                entries.append(self.pattern_entry())
            self.expect("}")
            return ("members", entries)
        return ("var", self.a("var"))

    def pattern_entry(self):
        """A triple of a variable's name or None, the key's filter, and a pattern or None."""
        sort, value = self.peek()
        if sort == "var":
            self.take()
            return value, ("literal", value), self.pattern() if self.try_symbol(":") else None
        if self.try_symbol("("):
            key = self.pipe()
            self.expect(")")
        elif sort == "name":
            self.take()
            key = ("literal", value)
        else:
            key = self.string(None)
        self.expect(":")
        return None, key, self.pattern()


# ---- names: the first that nothing binds


class Scope:
    """Sets of names: functions with counts, variables, labels."""

    def __init__(self, functions, variables=frozenset(), labels=frozenset()):
        self.functions, self.variables, self.labels = functions, variables, labels

    def function(self, name, count):
        return Scope(self.functions | {(name, count)}, self.variables, self.labels)

    def variable(self, name):
        return Scope(self.functions, self.variables | {name}, self.labels)

    def label(self, name):
        return Scope(self.functions, self.variables, self.labels | {name})


def check_names(tree, scope):
    form = tree[0]
    if form == "variable" and tree[1] not in scope.variables:
        raise Refused(f"${tree[1]} is not defined")
    if form == "break" and tree[1] not in scope.labels:
        raise Refused(f"break ${tree[1]} is not defined")
    if form in ("format", "string"):
        format_name = tree[1] if form == "format" else tree[3]
        if format_name and format_name[1] not in FORMATS:
            raise Refused(f"@{format_name[1]} is not defined")
    if form == "call":
        _, name, arguments, at = tree
        if at >= 0 and (name, len(arguments)) not in scope.functions:
            raise Refused(f"{name}/{len(arguments)} is not defined")
    if form == "def":
        _, name, parameters, body, rest = tree
        inner = scope.function(name, len(parameters))
        within = inner
        for parameter in parameters:
            within = within.function(parameter, 0)
        check_names(body, within)
        check_names(rest, inner)
    elif form == "label":
        check_names(tree[2], scope.label(tree[1]))
    elif form in ("as", "reduce", "foreach"):
        check_names(tree[1], scope)
        inner = check_pattern(tree[2], scope)
        if form == "as":
            check_names(tree[3], inner)
        else:
            check_names(tree[3], scope)
            for part in tree[4:]:
                check_names(part, inner)
    else:
        for part in inner_trees(tree):
            check_names(part, scope)


def check_pattern(pattern, scope):
    if pattern[0] == "var":
        return scope.variable(pattern[1])
    for entry in pattern[1]:
        if pattern[0] == "items":
            scope = check_pattern(entry, scope)
            continue
        name, key, inner = entry
        check_names(key, scope)
        if name is not None:
            scope = scope.variable(name)
        if inner is not None:
            scope = check_pattern(inner, scope)
    return scope


def inner_trees(tree):
    """The trees right inside a form that binds nothing, in the order of the text."""
    form = tree[0]
    if form == "string":
        return tree[2]
    if form == "object":
        return [part for entry in tree[1] for part in entry[1:] if part]
    if form == "call":
        return tree[2]
    if form == "slice":
        return [tree[1], *tree[2]]
    if form == "each":
        return [tree[1]]
    return [part for part in tree[1:] if isinstance(part, tuple) and part and isinstance(part[0], str) and form != "format"]


# ---- places of `inputs`

PLACED = {("first", 1): 0, ("last", 1): 0, ("isempty", 1): 0, ("any", 2): 0, ("all", 2): 0, ("limit", 2): 1}
INPUTS = ("inputs", 0)


def pattern_trees(pattern):
    if pattern[0] == "items":
        return [t for inner in pattern[1] for t in pattern_trees(inner)]
    if pattern[0] == "members":
        return [t for _, key, inner in pattern[1] for t in [key, *(pattern_trees(inner) if inner else [])]]
    return []


def count_inputs(tree, hidden=frozenset()):
    form = tree[0]
    if form == "call" and (tree[1], len(tree[2])) == INPUTS and INPUTS not in hidden:
        return 1
    if form == "def":
        _, name, parameters, body, rest = tree
        inner = hidden | {(name, len(parameters))}
        return count_inputs(body, inner | {(p, 0) for p in parameters}) + count_inputs(rest, inner)
    if form == "label":
        return count_inputs(tree[2], hidden)
    if form in ("as", "reduce", "foreach"):
        return sum(count_inputs(t, hidden) for t in [tree[1], *pattern_trees(tree[2]), *tree[3:]])
    return sum(count_inputs(t, hidden) for t in inner_trees(tree))


def is_single(tree):
    form = tree[0]
    if form in ("literal", "identity", "variable", "array"):
        return True
    if form == "string":
        return tree[3] is None and not tree[2]
    if form in ("group", "negate"):
        return is_single(tree[1])
    if form == "binary":
        return is_single(tree[2]) and is_single(tree[3])
    if form == "index":
        return tree[4] == "field" and not tree[3] and is_single(tree[1])
    if form == "object":
        return all(entry_is_plain(e) and (e[2] is None or is_single(e[2])) for e in tree[1])
    return False


def entry_is_plain(entry):
    return entry[0] == "plain"


def in_place(tree, hidden=frozenset()):
    """Whether the one `inputs` of a tree is at a place where it is evaluated at most once."""
    form = tree[0]

    def has_it(t):
        return count_inputs(t, hidden) > 0

    if form == "call":
        key = (tree[1], len(tree[2]))
        if key == INPUTS and INPUTS not in hidden:
            return True
        at = PLACED.get(key) if key not in hidden else None
        if at is None or (key == ("limit", 2) and not (is_single(tree[2][0]) and not has_it(tree[2][0]))):
            return False
        return has_it(tree[2][at]) and in_place(tree[2][at], hidden)
    if form == "def":
        _, name, parameters, _, rest = tree
        inner = hidden | {(name, len(parameters))}
        return count_inputs(rest, inner) > 0 and in_place(rest, inner)
    if form in ("group", "array", "label"):
        return in_place(tree[2] if form == "label" else tree[1], hidden)
    if form == "try":
        return has_it(tree[1]) and in_place(tree[1], hidden)
    if form in ("pipe", "alternative", "as", "if", "each"):
        return has_it(tree[1]) and in_place(tree[1], hidden)
    if form == "comma":
        return any(has_it(t) and in_place(t, hidden) for t in tree[1:3])
    if form == "index":
        return has_it(tree[1]) and (tree[4] != "computed" or is_single(tree[2])) and in_place(tree[1], hidden) and (
            tree[4] != "key" or is_single(tree[2])
        )
    if form == "binary":
        if has_it(tree[3]):
            return in_place(tree[3], hidden)
        return is_single(tree[3]) and in_place(tree[2], hidden)
    if form == "assign":
        return tree[1] not in ("=", "|=") and has_it(tree[3]) and in_place(tree[3], hidden)
    if form == "object":
        value = next((e[2] for e in tree[1] if e[2] is not None and has_it(e[2])), None)
        others = [e for e in tree[1] if e[2] is not value or value is None]
        plain = value is not None and all(entry_is_plain(e) for e in tree[1])
        return plain and all(e[2] is None or is_single(e[2]) for e in others) and in_place(value, hidden)
    if form in ("reduce", "foreach"):
        return has_it(tree[1]) and is_single(tree[3]) and in_place(tree[1], hidden)
    return False


# ---- meaning: generators of items, pairs of a value and a path (None where there is none)


class Env:
    """Bindings from the inside out: functions, closures, variables and labels by sort and name."""

    __slots__ = ("key", "value", "before")

    def __init__(self, key, value, before):
        self.key, self.value, self.before = key, value, before

    def find(self, key):
        env = self
        while env is not None:
            if env.key == key:
                return env
            env = env.before
        return None


INVALID = "Invalid path expression"


class Machine:
    def __init__(self, prelude, variables, inputs):
        self.prelude, self.variables, self.inputs = prelude, variables, inputs

    def values(self, tree, env, depth, v):
        for value, _ in self.run(tree, env, depth, v, None):
            yield value

    def run(self, tree, env, depth, v, path):
        form = tree[0]
        handler = getattr(self, "run_" + form, None)
        if handler:
            yield from handler(tree, env, depth, v, path)
            return
        for value in getattr(self, "value_" + form)(tree, env, depth, v):
            if path is not None:
                fail(INVALID)
            yield value, None

    # forms that keep paths

    def run_identity(self, tree, env, depth, v, path):
        yield v, path

    def run_group(self, tree, env, depth, v, path):
        return self.run(tree[1], env, depth, v, path)

    def step(self, target, key, guarded):
        value, path = target
        try:
            part = index(value, key)
        except Raised:
            if guarded:
                return
            raise
        yield part, None if path is None else path + [key]

    def run_index(self, tree, env, depth, v, path):
        for key in self.values(tree[2], env, depth, v):
            for target in self.run(tree[1], env, depth, v, path):
                yield from self.step(target, key, tree[3])

    def run_slice(self, tree, env, depth, v, path):
        for start in self.values(tree[2][0], env, depth, v):
            for end in self.values(tree[2][1], env, depth, v):
                for target in self.run(tree[1], env, depth, v, path):
                    yield from self.step(target, {"start": start, "end": end}, tree[3])

    def run_each(self, tree, env, depth, v, path):
        for value, place in self.run(tree[1], env, depth, v, path):
            try:
                found = parts(value)
            except Raised:
                if tree[3]:
                    continue
                raise
            for key, part in found:
                yield part, None if place is None else place + [key]

    def run_pipe(self, tree, env, depth, v, path):
        for value, place in self.run(tree[1], env, depth, v, path):
            yield from self.run(tree[2], env, depth, value, place)

    def run_comma(self, tree, env, depth, v, path):
        yield from self.run(tree[1], env, depth, v, path)
        yield from self.run(tree[2], env, depth, v, path)

    def run_if(self, tree, env, depth, v, path):
        for test in self.values(tree[1], env, depth, v):
            yield from self.run(tree[3] if test is None or test is False else tree[2], env, depth, v, path)

    def run_try(self, tree, env, depth, v, path):
        body = self.run(tree[1], env, depth, v, path)
        while True:
            try:
                item = next(body)
            except StopIteration:
                return
            except Raised as raised:
                error = raised.value
                break
            yield item
        if path is None:
            yield from self.run(tree[2], env, depth, error, None)
        else:
            for _ in self.values(tree[2], env, depth, error):
                fail(INVALID)

    def run_alternative(self, tree, env, depth, v, path):
        left, kept = self.run(tree[1], env, depth, v, path), False
        while True:
            try:
                item = next(left)
            except (StopIteration, Raised):
                break
            if item[0] is not None and item[0] is not False:
                kept = True
                yield item
        if not kept:
            yield from self.run(tree[2], env, depth, v, path)

    def run_label(self, tree, env, depth, v, path):
        level = object()
        try:
            yield from self.run(tree[2], Env(("label", tree[1]), level, env), depth, v, path)
        except Break as broken:
            if broken.level is not level:
                raise

    def run_break(self, tree, env, depth, v, path):
        raise Break(env.find(("label", tree[1])).value)
        yield

    def run_def(self, tree, env, depth, v, path):
        _, name, parameters, body, rest = tree
        return self.run(rest, Env(("function", name, len(parameters)), (parameters, body), env), depth, v, path)

    def run_as(self, tree, env, depth, v, path):
        for value in self.values(tree[1], env, depth, v):
            for bound in self.bindings(tree[2], env, depth, value):
                yield from self.run(tree[3], bound, depth, v, path)

    def run_reduce(self, tree, env, depth, v, path):
        for state in self.run(tree[3], env, depth, v, path):
            for bound in self.sources(tree, env, depth, v):
                state = self.last_state(self.run(tree[4], bound, depth, *state), path)
            yield state

    def run_foreach(self, tree, env, depth, v, path):
        for state in self.run(tree[3], env, depth, v, path):
            for bound in self.sources(tree, env, depth, v):
                new = None
                for new in self.run(tree[4], bound, depth, *state):
                    yield from self.run(tree[5], bound, depth, *new)
                state = self.last_state([new] if new else [], path)

    def sources(self, tree, env, depth, v):
        for value in self.values(tree[1], env, depth, v):
            yield from self.bindings(tree[2], env, depth, value)

    def last_state(self, items, path):
        state = None
        for state in items:
            pass
        if state is None:
            if path is not None:
                fail(INVALID)
            return None, None
        return state

    def bindings(self, pattern, env, depth, value):
        if pattern[0] == "var":
            yield Env(("variable", pattern[1]), value, env)
            return
        if pattern[0] == "items":
            entries = [(None, ("literal", i), inner) for i, inner in enumerate(pattern[1])]
        else:
            entries = pattern[1]
        yield from self.entries(entries, env, depth, value)

    def entries(self, entries, env, depth, value):
        if not entries:
            yield env
            return
        name, key, inner = entries[0]
        for k in self.values(key, env, depth, value):
            part = index(value, k)
            named = env if name is None else Env(("variable", name), part, env)
            for bound in self.bindings(inner, named, depth, part) if inner else [named]:
                yield from self.entries(entries[1:], bound, depth, value)

    def run_prelude(self, tree, env, depth, v, path):
        return self.apply(self.prelude[(tree[1], len(tree[2]))], tree[2], env, depth, v, path)

    def apply(self, function, arguments, env, depth, v, path):
        """A call of a defined function: its own bindings, its parameters and its body."""
        if depth == 0:
            raise Deep
        parameters, body, inner = function
        for parameter, argument in zip(parameters, arguments):
            inner = Env(("function", parameter, 0), (argument, env), inner)
        yield from self.run(body, inner, depth - 1, v, path)

    def run_call(self, tree, env, depth, v, path):
        _, name, arguments, at = tree
        key = (name, len(arguments))
        found = env.find(("function", *key)) if env and at >= 0 else None
        if found and isinstance(found.value[0], list):
            return self.apply((*found.value, found), arguments, env, depth, v, path)
        if found:
            return self.close(found.value, depth, v, path)
        if at >= 0 and key in self.prelude:
            return self.apply(self.prelude[key], arguments, env, depth, v, path)
        return self.core(key, arguments, env, depth, v, path)

    def close(self, closure, depth, v, path):
        if depth == 0:
            raise Deep
        yield from self.run(closure[0], closure[1], depth - 1, v, path)

    def core(self, key, arguments, env, depth, v, path):
        if key == ("empty", 0):
            return
        if key == ("halt", 0):
            raise Halt(0, b"")
        if key == ("halt_error", 1):
            for status in self.values(arguments[0], env, depth, v):
                if kind(status) != "number" or not 0 <= status <= 255:
                    fail("exit code must be a number from 0 to 255")
                raise Halt(status, (v if isinstance(v, str) else printed(v) + "\n").encode())
            return
        if key == ("getpath", 1) and path is not None:
            for more in self.values(arguments[0], env, depth, v):
                yield getpath(v, a_path(more)), path + more
            return
        for value in self.native(key, arguments, env, depth, v):
            if path is not None:
                fail(INVALID)
            yield value, None

    def native(self, key, arguments, env, depth, v):
        if key == ("inputs", 0):
            yield from self.inputs()
        elif key == ("path", 1):
            for _, place in self.run(arguments[0], env, depth, v, []):
                yield place
        elif key[0] == "range":
            for given in self.products(arguments, env, depth, v):
                yield from range_of(*given)
        else:
            for given in self.products(arguments, env, depth, v):
                yield NATIVES[key](v, *given)

    def products(self, arguments, env, depth, v):
        if not arguments:
            yield ()
            return
        for first in self.values(arguments[0], env, depth, v):
            for rest in self.products(arguments[1:], env, depth, v):
                yield (first, *rest)

    # forms that give values alone

    def value_literal(self, tree, env, depth, v):
        yield tree[1]

    def value_variable(self, tree, env, depth, v):
        found = env.find(("variable", tree[1])) if env else None
        yield found.value if found else self.variables[tree[1]]

    def value_array(self, tree, env, depth, v):
        yield list(self.values(tree[1], env, depth, v))

    def value_object(self, tree, env, depth, v):
        yield from self.made(tree[1], {}, env, depth, v)

    def made(self, entries, so_far, env, depth, v):
        if not entries:
            yield so_far
            return
        for key in self.values(entries[0][1], env, depth, v):
            if not isinstance(key, str):
                fail("Object keys must be strings")
            own = [index(v, key)] if entries[0][2] is None else self.values(entries[0][2], env, depth, v)
            for value in own:
                yield from self.made(entries[1:], so_far | {key: value}, env, depth, v)

    def value_string(self, tree, env, depth, v):
        _, pieces, inner, form = tree
        write = FORMATS[form[1]] if form else to_string

        def ends(n):
            """The texts of what follows piece n, later filters outermost."""
            if n == 0:
                yield pieces[0], ""
                return
            for value in self.values(inner[n - 1], env, depth, v):
                text = write(value)
                for front, back in ends(n - 1):
                    yield front, back + text + pieces[n]

        for front, back in ends(len(inner)):
            yield front + back

    def value_format(self, tree, env, depth, v):
        yield FORMATS[tree[1][1]](v)

    def value_binary(self, tree, env, depth, v):
        for b in self.values(tree[3], env, depth, v):
            for a in self.values(tree[2], env, depth, v):
                yield OPERATORS[tree[1]](a, b)

    def value_negate(self, tree, env, depth, v):
        for a in self.values(tree[1], env, depth, v):
            yield neg(a)

    def value_and(self, tree, env, depth, v):
        for a in self.values(tree[1], env, depth, v):
            if a is None or a is False:
                yield False
            else:
                yield from (b is not None and b is not False for b in self.values(tree[2], env, depth, v))

    def value_or(self, tree, env, depth, v):
        for a in self.values(tree[1], env, depth, v):
            if a is not None and a is not False:
                yield True
            else:
                yield from (b is not None and b is not False for b in self.values(tree[2], env, depth, v))

    def run_assign(self, tree, env, depth, v, path):
        _, operator, left, right = tree
        if operator in ("=", "|="):
            name = "_assign" if operator == "=" else "_modify"
            return self.run(("prelude", name, [left, right]), env, depth, v, path)
        return self.run(("as", right, ("var", ""), self.update(operator[:-1], left)), env, depth, v, path)

    def update(self, operator, left):
        value = ("variable", "")
        new = ("alternative", IDENTITY, value) if operator == "//" else ("binary", operator, IDENTITY, value)
        return ("prelude", "_modify", [left, new])


def range_of(start, end, step=1):
    if not all(kind(n) == "number" for n in (start, end, step)):
        fail("Range bounds must be numeric")
    if step == 0:
        fail("Range step is 0")
    while start < end if step > 0 else start > end:
        yield start
        start += step


# ---- the prelude

# The one source of the prelude is the project's own; what it means is read here anew.
PRELUDE_FILE = pathlib.Path(__file__).resolve().parent.parent / "crates" / "jq_tree" / "src" / "prelude.rt"
PRELUDE = re.search(r'r#"(.*?)"#', PRELUDE_FILE.read_text(), re.DOTALL).group(1)


@functools.lru_cache(None)
def read_prelude():
    """The functions of the prelude by name and count, each with the bindings that its body sees."""
    tree, env, found = Parser(tokens_of(PRELUDE)).main(), None, {}
    while tree[0] == "def":
        _, name, parameters, body, rest = tree
        env = Env(("function", name, len(parameters)), (parameters, body), env)
        found[(name, len(parameters))] = (parameters, body, env)
        tree = rest
    return found


def compiled(text, variables, on_null, prelude):
    tokens = tokens_of(text)
    check_limits(tokens)
    tree = Parser(tokens).main()
    known = frozenset(NATIVES) | CORE | frozenset(prelude)
    check_names(tree, Scope(known, frozenset(variables)))
    n = count_inputs(tree)
    if n > 1 or n == 1 and not in_place(tree):
        raise Refused("inputs stands where it may be evaluated again")
    if n and not on_null:
        raise Refused("inputs needs -n")
    return tree, n > 0


# ---- the command


class Usage(Exception):
    pass


def take_variables(words):
    left, variables, words = [], {}, list(words)
    while words:
        word = words.pop(0)
        if word in ("--arg", "--argjson"):
            if len(words) < 2 or not re.fullmatch(r"[A-Za-z_][A-Za-z0-9_]*", words[0], re.ASCII):
                raise Usage
            name, text = words.pop(0), words.pop(0)
            try:
                value = text if word == "--arg" else read_text(text.encode())
            except Fault:
                raise Usage from None
            variables.setdefault(name, value)
        else:
            left.append(word)
            if word == "--":
                return left + words, variables
    return left, variables


FLAGS = dict(
    c="compact-output", r="raw-output", j="join-output", n="null-input", s="slurp", e="exit-status", S="sort-keys", M="monochrome-output"
)


def options_of(words):
    given, plain, words = {}, [], list(words)
    while words:
        word = words.pop(0)
        if word == "--":
            plain += words
            break
        if word == "--depth" or word.startswith("--depth="):
            if "depth" in given:
                raise Usage
            text = word[8:] if "=" in word else (words.pop(0) if words else "")
            if not re.fullmatch(r"\+?[0-9]+", text) or not 1 <= int(text) <= 100_000:
                raise Usage
            given["depth"] = int(text)
        elif word.startswith("--"):
            if word[2:] not in (*FLAGS.values(), "live", "follow"):
                raise Usage
            given[word[2:]] = True
        elif word.startswith("-") and len(word) > 1:
            for letter in word[1:]:
                if letter not in FLAGS:
                    raise Usage
                given[FLAGS[letter]] = True
        else:
            plain.append(word)
    if not plain or given.get("null-input") and given.get("slurp") or given.get("follow") and not given.get("live"):
        raise Usage
    return given, plain[0], plain[1:]


class Command:
    def __init__(self, given, filter_text, files, variables):
        self.given, self.text, self.files, self.last = given, filter_text, files, None
        self.depth = given.get("depth", 10_000)
        self.prelude = read_prelude()
        self.variables = variables
        self.tree, self.reads = compiled(filter_text, variables, given.get("null-input"), self.prelude)
        self.failed = self.any_output = False
        self.halt = None  # the status of a run that halted
        self.out = self.err = None  # where what runs write is kept, in a session

    def write(self, v):
        self.any_output, self.last = True, v
        raw = self.given.get("raw-output") or self.given.get("join-output")
        if raw and isinstance(v, str):
            text = v
        else:
            text = printed(v, None if self.given.get("compact-output") else 0)
        (self.out or sys.stdout.buffer).write(text.encode() + (b"" if self.given.get("join-output") else b"\n"))

    def tell(self, line):
        self.tell_all(f"jq: error: {line}\n")

    def tell_all(self, text):
        self.tell_bytes(text.encode())

    def tell_bytes(self, written):
        sys.stdout.flush()
        (self.err or sys.stderr.buffer).write(written)

    def run_on(self, value, inputs=lambda: ()):
        machine = Machine(self.prelude, self.variables, inputs)
        try:
            for output in machine.values(self.tree, None, self.depth, value):
                self.write(output)
            return
        except Raised as raised:
            if isinstance(raised.value, str):
                self.tell(raised.value)
            else:
                self.tell_all(f"jq: error (not a string): {printed(raised.value)}\n")
        except Deep:
            self.tell("call depth limit reached")
        except Halt as halt:
            self.tell_bytes(halt.written)
            self.halt = halt.status
            return
        self.failed = True

    def read(self):
        """All bytes of the files, and whether one could not be read."""
        data = b""
        try:
            for name in self.files or [0]:
                with open(name, "rb", closefd=name != 0) as file:
                    data += file.read()
        except OSError:
            return data, True
        return data, False

    def main(self):
        if self.given.get("live"):
            return self.serve()
        if self.given.get("null-input") and not self.reads:
            self.run_on(None)
            return self.status()
        data, is_bad = self.read()
        values, fault = [], None
        try:
            for value in texts_of(data, not is_bad):
                if self.given.get("null-input") or self.given.get("slurp"):
                    values.append(value)
                else:
                    self.run_on(value)
                    if self.halt is not None:
                        return self.halt
        except Fault as found:
            if not is_bad or found.why != "unfinished text":
                fault, is_bad = f"input at byte {found.at}: {found.why}", False
        if self.given.get("null-input"):

            def inputs():
                yield from values
                if fault:
                    fail(fault)

            self.run_on(None, inputs)
        elif self.given.get("slurp") and fault is None:
            self.run_on(values)
        if fault and not self.given.get("null-input"):
            self.tell(fault)
            return 2
        if is_bad:
            self.tell("read fault")
            return 2
        return self.status()

    def status(self):
        if self.halt is not None:
            return self.halt
        if self.failed:
            return 5
        if self.given.get("exit-status"):
            return 4 if not self.any_output else 1 if self.last is None or self.last is False else 0
        return 0

    def outcome(self, values):
        """What the runs on these values write to both outputs, and their status."""
        self.out, self.err = io.BytesIO(), io.BytesIO()
        self.failed = self.any_output = False
        self.halt = None
        if self.given.get("null-input"):
            self.run_on(None, lambda: iter(values))
        elif self.given.get("slurp"):
            self.run_on(list(values))
        else:
            for value in values:
                self.run_on(value)
                if self.halt is not None:
                    break
        return self.out.getvalue(), self.err.getvalue(), self.status()

    def serve(self):
        try:
            session = Session(self, self.first_inputs())
            with open(0, "rb", closefd=False) as script:
                for line in script:
                    sys.stdout.buffer.write(session.answer(line.removesuffix(b"\n")))
                    sys.stdout.flush()
        except (Fault, OSError) as found:
            self.err = None
            self.tell(f"input at byte {found.at}: {found.why}" if isinstance(found, Fault) else "read fault")
            return 2
        except Full:
            self.tell("too many inputs")
            return 2
        return 0

    def first_inputs(self):
        data, is_bad = self.read() if self.files else (b"", False)
        values = []
        try:
            values += texts_of(data, not is_bad)
        except Fault as found:
            if not is_bad or found.why != "unfinished text":
                raise
        if is_bad:
            raise OSError
        if len(values) > MOST_INPUTS:
            raise Full
        return values


# ---- the session

MOST_INPUTS, LONGEST_LINE = 1_000_000, 16_777_216
# How many parts come after the word of a line.
PARTS = {b"insert": 2, b"replace": 2, b"remove": 1, b"move": 2, b"append": 1, b"filter": 1}
# The numbers of a refused filter, by words of its refusal.
FILTER_REFUSALS = {
    "bad token at": 10, "syntax error": 11, "more than 8192 tokens": 12, "more than 256 open": 13, " is not defined": 14, "inputs stands": 15, "inputs needs": 16,
}  # fmt: skip


class Full(Exception):
    pass


def splices_of(before, gone, come):
    """The answers that tell what changed in the output and in the errors: after these bytes some go, and others come."""
    return b"".join(b"%s %d %d %d\n" % (word, len(a), len(b), len(c)) + c for word, a, b, c in zip((b"out", b"err"), before, gone, come))


def place_of(part):
    """The number of an input that a part of a line is."""
    return int(part) if re.fullmatch(rb"[0-9]{1,19}", part) else None


class Session:
    """A filter over inputs that are edited. After each edit it runs over all of them anew. Where its runs on the inputs do not
    depend on each other, an edit changes what the edited input wrote, else all that was written."""

    def __init__(self, command, inputs):
        self.inputs, self.splices = inputs, b""
        self.take(command)

    def take(self, command):
        """Runs a filter over the present inputs."""
        self.command = command
        self.is_apart = not ("halt" in command.text or command.given.get("null-input") or command.given.get("slurp"))
        self.output, self.errors, self.status = command.outcome(self.inputs)

    def tell(self, before, gone, come):
        if self.command.given.get("follow"):
            self.splices += splices_of(before, gone, come)

    def change(self, place, taken, values):
        """Replaces so many inputs from a place on by these, and keeps the splices of the output and of the errors."""
        old, before, gone = (self.output, self.errors), self.inputs[:place], self.inputs[place : place + taken]
        self.inputs = before + values + self.inputs[place + taken :]
        self.output, self.errors, self.status = self.command.outcome(self.inputs)
        if self.is_apart:
            self.tell(*(self.command.outcome(some) for some in (before, gone, values)))
        else:
            self.tell((b"", b""), old, (self.output, self.errors))

    def answer(self, line):
        if line == b"show":
            return b"out %d\n" % len(self.output) + self.output
        if line == b"errors":
            return b"err %d\n" % len(self.errors) + self.errors
        if line == b"status":
            return b"status %d\n" % self.status
        self.splices = b""
        refusal = self.follow(line)
        return b"ok %d\n" % self.status + self.splices if refusal is None else b"refused %d\n" % refusal

    def follow(self, line):
        """Does what a line asks for, or answers the number of its refusal."""
        word, *parts = line.split(b" ", PARTS.get(line.partition(b" ")[0], 0))
        if len(line) > LONGEST_LINE or len(parts) != PARTS.get(word):
            return 0
        if word == b"filter":
            return self.filter(*parts)
        if word == b"move":
            return self.move(*map(place_of, parts))
        return self.edit(word, len(self.inputs) if word == b"append" else place_of(parts.pop(0)), parts)

    def edit(self, word, place, texts):
        if place is None:
            return 0
        count, is_new = len(self.inputs), word in (b"insert", b"append")
        if place > count or place == count and not is_new:
            return 20
        if is_new and count >= MOST_INPUTS:
            return 22
        try:
            values = [read_text(text) for text in texts]
        except Fault:
            return 21
        self.change(place, 0 if is_new else 1, values)
        return None

    def move(self, place, new_place):
        """Takes an input out, and puts it at a place of the shorter list."""
        if place is None or new_place is None:
            return 0
        if max(place, new_place) >= len(self.inputs):
            return 20
        value = self.inputs[place]
        self.change(place, 1, [])
        self.change(new_place, 0, [value])
        return None

    def filter(self, written):
        """Takes another filter, under the same options."""
        old = self.command
        try:
            command = Command(old.given, written.decode(), old.files, old.variables)
        except UnicodeDecodeError:
            return 10
        except Refused as refused:
            return next(number for words, number in FILTER_REFUSALS.items() if words in str(refused))
        gone = self.output, self.errors
        self.take(command)
        self.tell((b"", b""), gone, (self.output, self.errors))
        return None


def main():
    try:
        left, variables = take_variables(sys.argv[1:])
        given, filter_text, files = options_of(left)
    except Usage:
        print("jq: error: usage", file=sys.stderr)
        return 2
    try:
        return Command(given, filter_text, files, variables).main()
    except Refused as refused:
        print(f"jq: error: {refused}", file=sys.stderr)
        return 3


if __name__ == "__main__":
    status = [2]

    def run():
        status[0] = main()
        sys.stdout.flush()

    sys.setrecursionlimit(10**6)
    threading.stack_size(1 << 29)
    thread = threading.Thread(target=run)
    thread.start()
    thread.join()
    os._exit(status[0])
