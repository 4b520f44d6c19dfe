#!/usr/bin/env python3
"""A client of `jql --live`: the orders of some files are edited, and the bill of each customer follows. Then other filters show
the same orders in other ways.

    session.py [FILE...]

The class Session serves any filter. docs/SESSION.md describes the protocol that it speaks.
"""
import contextlib
import json
import subprocess
import sys

REASONS = {
    0: "no such request", 20: "no such place", 21: "no JSON text", 22: "too many inputs", 40: "out of memory",
    10: "bad token", 11: "syntax error", 12: "too many tokens", 13: "too many open brackets", 14: "a name is not defined",
    15: "inputs may be evaluated again", 16: "inputs needs -n",
}  # fmt: skip


class Refused(Exception):
    """A line that jql refused. It changed nothing."""

    def __init__(self, number):
        super().__init__(REASONS.get(number, f"refusal {number}"))
        self.number = number


class Session:
    """A filter over inputs that are edited. `output`, `errors` and `status` are those of the present filter and inputs.

    The texts of the files are the first inputs. The output and the errors are asked for once; then each edit, and each other
    filter, is answered with what it changes in them. Each line is sent alone, and its answer is read before the next one. So
    the pipes never fill up on both sides. Where jql ends, by a fault or by a signal, the call raises EOFError.
    """

    def __init__(self, filter_text, *words, files=(), program="jql"):
        command = [program, "--live", "--follow", *words, "--", filter_text, *files]
        self.process = subprocess.Popen(command, stdin=subprocess.PIPE, stdout=subprocess.PIPE)
        self.output, self.errors = bytearray(self.ask("show")), bytearray(self.ask("errors"))
        self.status = self.ask("status")

    def __enter__(self):
        return self

    def __exit__(self, *_):
        self.close()

    def insert(self, place, text):
        """Makes a JSON text the input of this number. The inputs from there on move up by one."""
        self.edit(f"insert {place} {text}")

    def replace(self, place, text):
        self.edit(f"replace {place} {text}")

    def remove(self, place):
        self.edit(f"remove {place}")

    def append(self, text):
        self.edit(f"append {text}")

    def move(self, place, new_place):
        """Takes the input of this number out, and makes it the one of the new number."""
        self.change(f"move {place} {new_place}", pairs=2)

    def filter(self, text):
        """Takes another filter, under the options of the session."""
        if "\n" in text:
            raise ValueError("a filter of a session has no newline")
        self.change(f"filter {text}")

    def edit(self, line):
        # A newline would end the line. A carriage return is to jql what a newline is in a JSON text: white space between
        # its parts, and refused in a string.
        self.change(line.replace("\n", "\r"))

    def change(self, line, pairs=1):
        """Sends a line, and applies the splices of its answer. Those of a move are two pairs."""
        self.status = self.ask(line)
        for _ in range(pairs):
            self.splice(self.output)
            self.splice(self.errors)

    def splice(self, kept):
        """Reads what an edit changes: from byte `at` on, `cut` bytes go and others come."""
        at, cut, count = self.head()[1]
        kept[at : at + cut] = self.body(count)

    def ask(self, line):
        """Sends one line and reads its answer: the bytes that follow it, or its number."""
        try:
            self.process.stdin.write(line.encode() + b"\n")
            self.process.stdin.flush()
        except BrokenPipeError:
            raise self.ended() from None
        word, [number] = self.head()
        if word == b"refused":
            raise Refused(number)
        return self.body(number) if word in (b"out", b"err") else number

    def head(self):
        """A word and the numbers after it, up to the end of the line."""
        line = self.process.stdout.readline()
        if not line.endswith(b"\n"):
            raise self.ended()
        word, *numbers = line.split()
        return word, [int(number) for number in numbers]

    def body(self, count):
        body = self.process.stdout.read(count)
        if len(body) < count:
            raise self.ended()
        return body

    def ended(self):
        status = self.process.wait()
        return EOFError(f"jql ended by signal {-status}" if status < 0 else f"jql ended with status {status}")

    def close(self):
        """Ends the script, and answers the status of jql."""
        with contextlib.suppress(BrokenPipeError):
            self.process.stdin.close()
        self.process.stdout.close()
        return self.process.wait()


# ---- bills that follow their orders

BILLS = r"""
  group_by(.customer)[] | "\(.[0].customer): \(map(.count * .cents) | add) cents"
"""


def order(customer, count, cents):
    return json.dumps({"customer": customer, "count": count, "cents": cents})


def change(bills, what, call, *arguments):
    """Makes an edit or takes another filter, and prints the output after it or why it was refused."""
    try:
        call(*arguments)
    except Refused as refusal:
        print(f"== {what}: refused, {refusal}")
    else:
        show(bills, what)


def show(bills, what):
    print(f"== {what}: status {bills.status}")
    print((bills.output + bills.errors).decode(), end="")


def main():
    with Session(BILLS, "-s", "-r", files=sys.argv[1:]) as bills:
        show(bills, "the orders")
        change(bills, "Bob takes one more", bills.replace, 1, order("Bob", 3, 250))
        change(bills, "an order at the front", bills.insert, 0, order("Carl", 1, 999))
        change(bills, "a text that is cut off", bills.append, '{"customer": "Dora"')
        change(bills, "a raw newline in a string", bills.append, '{"customer": "Do\nra", "count": 1, "cents": 100}')
        change(bills, "newlines between the parts of a text", bills.replace, 0, json.dumps({"customer": "Carl", "count": 1, "cents": 999}, indent=2))
        change(bills, "an order that is not there", bills.remove, 7)
        change(bills, "a count that is an array", bills.append, order("Dora", [2], 100))
        change(bills, "that one is removed", bills.remove, 4)
        change(bills, "Bob cancels", bills.remove, 2)
        change(bills, "the customers, order by order", bills.filter, 'map(.customer) | join(", ")')
        change(bills, "Carl's order goes to the end", bills.move, 0, 2)
        change(bills, "a place that is not there", bills.move, 0, 3)
        change(bills, "a filter that is cut off", bills.filter, "map(.cents")
        change(bills, "the total", bills.filter, "map(.count * .cents) | add")


if __name__ == "__main__":
    main()
