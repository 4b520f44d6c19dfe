#!/usr/bin/env python3
"""The program in dist/, which spares a user the proofs, and how it is compared with the one that the proofs give.

    tools/release.py current           status 0 if dist/ holds the program of these sources
    tools/release.py unpack            leaves that program as ./jql
    tools/release.py compare PROGRAM   fails if dist/ holds the program of these sources and PROGRAM is another one
    tools/release.py pack              puts ./jql into dist/, as the program of these sources

dist/jql.gz is the program without its symbols. dist/SOURCES holds the hash of the sources that it was built from, its own hash,
and the kit that built it. The sources are crates.txt and all files below crates/ but those of folders `must-fail` and `out`.
Their hash is the last line of this, at the top of the repository:

    { echo crates.txt; find crates \\( -name out -o -name must-fail \\) -prune -o -type f -print; } |
        LC_ALL=C sort | tr '\\n' '\\0' | xargs -0 sha256sum | sha256sum
"""
import argparse
import gzip
import hashlib
import os
import pathlib
import shutil
import subprocess
import sys
import tempfile

ROOT = pathlib.Path(__file__).resolve().parent.parent
PROGRAM, PACKED, SOURCES = ROOT / "jql", ROOT / "dist" / "jql.gz", ROOT / "dist" / "SOURCES"
LEFT_OUT = {"out", "must-fail"}


def sum_of(data):
    return hashlib.sha256(data).hexdigest()


def sources():
    """The sources' names from the top of the repository, sorted."""
    found = ["crates.txt"]
    for at, folders, names in os.walk(ROOT / "crates"):
        folders[:] = [name for name in folders if name not in LEFT_OUT]
        found += [os.path.relpath(os.path.join(at, name), ROOT) for name in names]
    return sorted(found, key=os.fsencode)


def hash_of_sources():
    return sum_of("".join(f"{sum_of((ROOT / name).read_bytes())}  {name}\n" for name in sources()).encode())


def said():
    """What dist/SOURCES says, by its first words."""
    lines = SOURCES.read_text().splitlines() if SOURCES.is_file() else []
    return dict(line.split(" ", 1) for line in lines if " " in line)


def is_current():
    return PACKED.is_file() and said().get("sources") == hash_of_sources()


def unpacked():
    program = gzip.decompress(PACKED.read_bytes())
    if sum_of(program) != said().get("program"):
        sys.exit("dist/jql.gz is not the program that dist/SOURCES names")
    return program


def write_program(path, data):
    """Writes a program in one step, since the old one may be running."""
    new = path.with_name(path.name + ".new")
    new.write_bytes(data)
    new.chmod(0o755)
    os.replace(new, path)


def kit_folder():
    where = shutil.which("rt")
    return pathlib.Path(os.path.realpath(where)).parent.parent if where else None


def stripped(path):
    """The bytes of a program without its symbols, as the kit's own tool leaves it out, so that every machine gets the same."""
    kit = kit_folder() or sys.exit("there is no rt on the PATH, whose kit has the tool that leaves out symbols")
    with tempfile.TemporaryDirectory() as folder:
        made = pathlib.Path(folder, "program")
        subprocess.run(["llvm-strip", "-o", made, path], executable=kit / "toolchain" / "bin" / "clang", check=True)
        return made.read_bytes()


def kit_name():
    return subprocess.run(["rt", "version"], stdout=subprocess.PIPE, text=True, check=True).stdout.strip()


# ---- the commands


def current():
    sys.exit(0 if is_current() else 1)


def unpack():
    if not is_current():
        sys.exit("dist/ holds no program of these sources: run make prove")
    write_program(PROGRAM, unpacked())
    print("./jql is the released program of these very sources, unpacked from dist/. To prove them and compare: make prove")


def compare(program):
    if not is_current():
        print(f"{program}: not compared, since dist/ holds no program of these sources")
    elif stripped(program) == unpacked():
        print(f"{program}: the same bytes as the released program in dist/")
    else:
        sys.exit(f"{program}: other bytes than the released program in dist/, which names the same sources")


def pack():
    data = stripped(PROGRAM)
    PACKED.parent.mkdir(exist_ok=True)
    PACKED.write_bytes(gzip.compress(data, 9, mtime=0))
    SOURCES.write_text(f"sources {hash_of_sources()}\nprogram {sum_of(data)}\nkit {kit_name()}\n")
    print(f"dist/jql.gz: {PACKED.stat().st_size} bytes")


def main():
    parser = argparse.ArgumentParser(description=__doc__.splitlines()[0])
    commands = parser.add_subparsers(dest="command", required=True)
    for command in (current, unpack, pack):
        commands.add_parser(command.__name__).set_defaults(run=command)
    comparison = commands.add_parser("compare")
    comparison.add_argument("program")
    comparison.set_defaults(run=compare)
    given = vars(parser.parse_args())
    run = given.pop("run")
    given.pop("command")
    run(**given)


if __name__ == "__main__":
    main()
