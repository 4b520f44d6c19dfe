#!/usr/bin/env python3
"""Writes the completions of bash, zsh and fish into completions/, from the options that the program takes.

    tools/completions.py            writes them
    tools/completions.py --check    fails if they are not what it would write

The options are those of crates/jq_cli: the names are in src/command.rt (and --arg and --argjson in src/taking.rt; clap adds
help and version), and their lines in the text of src/help.rt. Both must name the same.
"""
import pathlib
import re
import sys
from typing import List, NamedTuple

ROOT = pathlib.Path(__file__).resolve().parent.parent
SOURCES = ROOT / "crates" / "jq_cli" / "src"
OF_CLAP = {"-h", "--help", "-V", "--version"}
HEAD = "# Completion of jql for {}. Written by tools/completions.py from the options of crates/jq_cli.\n"


class Option(NamedTuple):
    short: str  # as "c", or empty
    long: str
    values: List[str]  # the names of the words that it takes
    text: str

    def spellings(self):
        return ([f"-{self.short}"] if self.short else []) + [f"--{self.long}"]


def options_of(text):
    """The options of a text of help."""
    rows = re.findall(r"(?m)^  (?:-(\w), |    )--([\w-]+)((?: [A-Z]+)*) {2,}(\S.*)$", text)
    return [Option(short, long, values.split(), words) for short, long, values, words in rows]


def defined_names():
    """The spellings that the command line is defined with."""
    command = (SOURCES / "command.rt").read_text()
    taking = (SOURCES / "taking.rt").read_text()
    flags = re.findall(r"\bflag\(alloc, '(\w)', \"([\w-]+)\"\)", command)
    longs = re.findall(r"\blong_flag\(alloc, \"([\w-]+)\"\)", command) + re.findall(r"\.long\(\"([\w-]+)\"\)", command)
    taken = re.findall(r"word == \"(--\w+)\"", taking)
    return {f"-{short}" for short, _ in flags} | {f"--{name}" for _, name in flags} | {f"--{name}" for name in longs} | {*taken} | OF_CLAP


def options():
    text = re.search(r'HELP_TEXT: &str = r#"(.*?)"#;', (SOURCES / "help.rt").read_text(), re.S)[1]
    found = options_of(text)
    differ = defined_names() ^ {name for option in found for name in option.spellings()}
    if differ:
        sys.exit(f"the definition of the command line and the text of help differ in {sorted(differ)}")
    return found


def bash(found):
    names = " ".join(name for option in found for name in option.spellings())
    first = "|".join(f"--{option.long}" for option in found if option.values)
    second = "|".join(f"--{option.long}" for option in found if len(option.values) > 1)
    return HEAD.format("bash") + f"""
_jql() {{
    local word=${{COMP_WORDS[COMP_CWORD]}} at
    COMPREPLY=()
    for (( at = 1; at < COMP_CWORD; at++ )); do
        # After -- no word is an option.
        [[ ${{COMP_WORDS[at]}} == -- ]] && return
    done
    # The words of an option are neither options nor files.
    if [[ ${{COMP_WORDS[COMP_CWORD-1]}} == @({first}) ]] ||
        {{ (( COMP_CWORD > 2 )) && [[ ${{COMP_WORDS[COMP_CWORD-2]}} == @({second}) ]]; }}; then
        compopt +o default
    elif [[ $word == -* ]]; then
        COMPREPLY=($(compgen -W '{names}' -- "$word"))
    fi
}}
complete -o default -F _jql jql
"""


def zsh(found):
    lines = []
    for option in found:
        text = re.sub(r"([][:\\])", r"\\\1", option.text).replace("'", "'\\''")
        names = option.spellings()
        spelt = names[0] if len(names) == 1 else "'{" + ",".join(names) + "}'"
        rest = "".join(f":{value}: " for value in option.values)
        before = "(- *)" if {*names} & OF_CLAP else "*" if len(option.values) > 1 else f"({' '.join(names)})"
        lines.append(f"    '{before}{spelt}[{text}]{rest}' \\\n")
    return "#compdef jql\n" + HEAD.format("zsh") + "\n_arguments -s -S \\\n" + "".join(lines) + "    '1:FILTER: ' \\\n    '*:FILE:_files'\n"


def fish(found):
    lines = []
    for option in found:
        short = f" -s {option.short}" if option.short else ""
        text = option.text.replace("\\", "\\\\").replace("'", "\\'")
        lines.append(f"complete -c jql{short} -l {option.long}{' -x' if option.values else ''} -d '{text}'\n")
    return HEAD.format("fish") + "\n" + "".join(lines)


FILES = {"jql.bash": bash, "_jql": zsh, "jql.fish": fish}


def main():
    folder, found = ROOT / "completions", options()
    for name, write in FILES.items():
        text, path = write(found), folder / name
        if sys.argv[1:] != ["--check"]:
            folder.mkdir(exist_ok=True)
            path.write_text(text)
        elif not path.is_file() or path.read_text() != text:
            sys.exit(f"completions/{name} is not what tools/completions.py writes: run make completions")


if __name__ == "__main__":
    main()
