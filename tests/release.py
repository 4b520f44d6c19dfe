#!/usr/bin/env python3
"""Tests of the release: the version, the completions, what `make dist` and `make deb` pack, the program in dist/, and tools/build.py.

    tests/release.py PROGRAM
"""
import os
import pathlib
import re
import shutil
import subprocess
import sys
import tarfile
import tempfile
import time

from program import run_tests

ROOT = pathlib.Path(__file__).resolve().parent.parent
sys.dont_write_bytecode = True
sys.path.insert(0, str(ROOT / "tools"))
import completions  # noqa: E402

PACKED = ["Makefile", "VERSION", "README.md", "CHANGELOG.md", "docs/jql.1", "completions", "tools"]


def call(words, **how):
    """The status of a command and all that it writes."""
    ran = subprocess.run([str(word) for word in words], stdout=subprocess.PIPE, stderr=subprocess.STDOUT, text=True, timeout=120, **how)
    return ran.returncode, ran.stdout


def tree(folder, program):
    """A tree with what a release is made from, a program, and one crate."""
    top = pathlib.Path(folder)
    for name in PACKED:
        (top / name).parent.mkdir(parents=True, exist_ok=True)
        copy = shutil.copytree if (ROOT / name).is_dir() else shutil.copy
        copy(ROOT / name, top / name)
    shutil.copy(program, top / "jql")
    for name in ("src", "must-fail", "out"):
        (top / "crates" / "low" / name).mkdir(parents=True)
        (top / "crates" / "low" / name / "lib.rt").write_text("one\n")
    (top / "crates.txt").write_text("low:\n")
    return top


def has_kit():
    return shutil.which("rt") is not None


# ---- the version and the completions


# Words that ask for the version, whatever else they say after it.
ASKING = [["--version"], ["-V"], [".", "missing.json", "-V"], ["-ncV", "."], ["-V", "--help"], ["--version", "--tab", "--depth", "0"], ["--live", "-V"]]


def one_version_is_everywhere(program):
    version = (ROOT / "VERSION").read_text().strip()
    places = {
        **{f"jql {' '.join(words)}": call([program, *words], stdin=subprocess.DEVNULL) == (0, f"jql {version}\n") for words in ASKING},
        "jql_cli": f'VERSION_TEXT: &str = "jql {version}\\n";' in (completions.SOURCES / "help.rt").read_text(),
        "docs/jql.1": f'.TH JQL 1 "" "jql {version}" ' in (ROOT / "docs" / "jql.1").read_text(),
        "CHANGELOG.md": re.search(r"(?m)^## \[(.*)\]", (ROOT / "CHANGELOG.md").read_text())[1] == version,
    }
    return [f"{place} has another version than {version}" for place, has in places.items() if not has]


def the_completions_are_those_of_the_options(program):
    status, told = call([sys.executable, ROOT / "tools" / "completions.py", "--check"])
    return status and told


def the_completions_have_the_options_of_help(program):
    named = {name for option in completions.options_of(call([program, "--help"])[1]) for name in option.spellings()}
    source = "source completions/jql.bash; COMP_WORDS=(jql {}) COMP_CWORD={}; _jql; echo ${{COMPREPLY[*]}}"
    given = call(["bash", "-c", source.format("-", 1)], cwd=ROOT)[1].split()
    if {*given} != named:
        return f"bash completes {given}, and the options are {sorted(named)}"
    if call(["bash", "-c", source.format("-- -", 2)], cwd=ROOT)[1].strip():
        return "bash completes options after --"
    for name in ("_jql", "jql.fish"):
        text = (ROOT / "completions" / name).read_text()
        lacking = [it for it in named if not re.search(rf"(?<![\w-]){it}(?![\w-])" if name == "_jql" else rf" -[sl] {it.lstrip('-')} ", text)]
        if lacking:
            return f"completions/{name} lacks {lacking}"
    return None


# ---- what is packed


def an_archive_has_the_same_bytes_twice(program):
    with tempfile.TemporaryDirectory() as folder:
        top = tree(folder, program)
        name = f"jql-{(ROOT / 'VERSION').read_text().strip()}-x86_64-linux"
        made = top / "dist" / f"{name}.tar.gz"
        packs = []
        for _ in range(2):
            status, told = call([sys.executable, "tools/package.py", "archive"], cwd=top)
            if status:
                return told
            packs.append(made.read_bytes())
            os.utime(top / "jql", (1, 1))
        if packs[0] != packs[1]:
            return "two archives of one tree differ"
        with tarfile.open(made) as tar:
            tar.extractall(top / "unpacked")
        status, told = call(["sha256sum", "--check", "--strict", "--quiet", "SHA256SUMS"], cwd=top / "unpacked" / name)
        packed = sorted(path.name for path in (top / "unpacked" / name).rglob("*") if path.is_file())
        return told if status else packed != sorted(["CHANGELOG.md", "README.md", "SHA256SUMS", "_jql", "jql", "jql.1", "jql.bash", "jql.fish"]) and packed


def a_debian_package_has_the_same_bytes_twice_and_works(program):
    if not shutil.which("dpkg-deb"):
        return print("skipped: a_debian_package_has_the_same_bytes_twice_and_works (there is no dpkg-deb)")
    with tempfile.TemporaryDirectory() as folder:
        top, packs = tree(folder, program), []
        for _ in range(2):
            status, told = call([sys.executable, "tools/package.py", "deb"], cwd=top)
            if status:
                return told
            packs.append(next((top / "dist").glob("*.deb")).read_bytes())
            time.sleep(1.1)
        if packs[0] != packs[1]:
            return "two packages of one tree differ"
        (top / "tests").mkdir()
        shutil.copy(ROOT / "tests" / "package.py", top / "tests")
        status, told = call([sys.executable, "tests/package.py"], cwd=top)
        print("".join(line + "\n" for line in told.splitlines() if line.startswith("skipped")), end="")
        return status and told


def what_is_installed_is_removed(program):
    with tempfile.TemporaryDirectory() as folder:
        top = tree(folder, program)
        words = ["make", f"DESTDIR={top / 'root'}", "PREFIX=/usr"]
        status, told = call([*words, "install"], cwd=top)
        made = sorted(str(path.relative_to(top / "root" / "usr")) for path in (top / "root").rglob("*") if path.is_file())
        wanted = ["bin/jql", "share/bash-completion/completions/jql", "share/fish/vendor_completions.d/jql.fish"]
        wanted += ["share/man/man1/jql.1", "share/zsh/site-functions/_jql"]
        if status or made != wanted:
            return told, made
        call([*words, "uninstall"], cwd=top)
        return [str(path) for path in (top / "root").rglob("*") if path.is_file()]


# ---- the program in dist/


def the_released_program_is_that_of_its_sources(program):
    """`make` unpacks the program in dist/ exactly if no source has changed, and a comparison fails for another program."""
    if not has_kit():
        return print("skipped: the_released_program_is_that_of_its_sources (there is no rt)")
    with tempfile.TemporaryDirectory() as folder:
        top = tree(folder, program)
        (top / "tools" / "build.py").write_text("print('everything is proved')\n")
        release = [sys.executable, "tools/release.py"]

        def make_proves():
            status, told = call(["make"], cwd=top)
            return status or "everything is proved" in told

        steps = [
            ("nothing is packed, so make proves", make_proves),
            ("pack", lambda: call([*release, "pack"], cwd=top)[0] == 0),
            ("unpack", lambda: (top / "jql").unlink() or not make_proves()),
            ("jql runs", lambda: call([top / "jql", "-n", "1"]) == (0, "1\n")),
            ("its bytes are the same", lambda: call([*release, "compare", program], cwd=top)[1].endswith("the same bytes as the released program in dist/\n")),
            ("another program is refused", lambda: call([*release, "compare", "/bin/sh"], cwd=top)[0] == 1),
            ("an edit of a wrong body changes nothing", lambda: (top / "crates/low/must-fail/lib.rt").write_text("two\n") and not make_proves()),
            ("what was built changes nothing", lambda: (top / "crates/low/out/more").write_text("two\n") and not make_proves()),
            ("a damaged program is refused", lambda: (top / "dist/SOURCES").write_text((top / "dist/SOURCES").read_text().replace("program ", "program 0")) and call([*release, "unpack"], cwd=top)[0] == 1),
            ("a source changes", lambda: (top / "crates/low/src/lib.rt").write_text("two\n") and make_proves()),
            ("then nothing is compared", lambda: call([*release, "compare", "/bin/sh"], cwd=top)[0] == 0),
            ("the list of crates changes", lambda: (top / "crates/low/src/lib.rt").write_text("one\n") and (top / "crates.txt").write_text("low: \n") and make_proves()),
        ]
        return [what for what, is_well in steps if not is_well()]


# ---- the build


FAKE_KIT = '''
import os, pathlib, time, types
KIT = "/nowhere"
ROWS = [line.split(":") for line in pathlib.Path("crates.txt").read_text().splitlines()]
known = {}
class Crate:
    cuts_libraries = False
    def __init__(self, folder, root, found):
        self.folder, self.root, self.name = folder, root, pathlib.Path(folder).name
        self.is_program = self.name == "jql"
        uses = dict(ROWS)[self.name].split()
        self.deps = [known.setdefault(it, None) or known.update({it: Crate(f"{root}/crates/{it}", root, found)}) or known[it] for it in uses]
    def below(self):
        return [it for name, it in sorted(known.items()) if name in [row[0] for row in ROWS] and it and it is not self]
    def stamp(self):
        return pathlib.Path(self.folder, "src/lib.rt").read_text() + "".join(it.stamp() for it in self.deps)
    def is_built(self):
        made = pathlib.Path(self.folder, "out/rlib/stamp")
        return made.is_file() and made.read_text() == self.stamp()
    def build_rlib(self, flags, anew):
        how = "from nothing" if anew and self.cuts_libraries else "over what is kept"
        print("built", how, "with", *flags, "at niceness", os.getpriority(os.PRIO_PROCESS, 0), file=self.out)
        if not all(it.is_built() for it in self.deps):
            raise ValueError("a library below is not built")
        time.sleep(0.2)
        if "wrong" in self.stamp():
            return 1
        pathlib.Path(self.folder, "out/rlib").mkdir(exist_ok=True)
        if not self.cuts_libraries:
            pathlib.Path(self.folder, "out/rlib/stamp").write_text(self.stamp())
        with open("order", "a") as order:
            order.write(self.name + " ")
        return 0
    def run(self, flags, arguments):
        return self.build_rlib(flags, False)
rtlib = types.SimpleNamespace(Crate=Crate, stop_on_links=lambda it: None, lock=lambda it: None, guarded=lambda: None, text_of=lambda it: "", sum_of=lambda it: "")
read_files, processors, free = lambda it: None, lambda: 2, lambda: 64 << 30
'''


def put_crates(top, crates_txt):
    """A tree of crates over a kit that proves nothing."""
    shutil.copytree(ROOT / "tools", top / "tools")
    (top / "bin").mkdir()
    (top / "bin" / "rt").write_text(FAKE_KIT)
    (top / "bin" / "rt").chmod(0o755)
    (top / "crates.txt").write_text(crates_txt)
    for line in crates_txt.splitlines():
        name = line.split(":")[0]
        (top / "crates" / name / "src").mkdir(parents=True)
        (top / "crates" / name / "src" / "lib.rt").write_text(name)


def build_crates(top, lanes):
    """What tools/build.py ends with, what it prints, and the crates in the order of their ends."""
    surroundings = {**os.environ, "PATH": f"{top / 'bin'}{os.pathsep}{os.environ['PATH']}", "JOBS": str(lanes)}
    (top / "order").write_text("")
    status, told = call([sys.executable, "tools/build.py"], cwd=top, env=surroundings)
    return status, told, (top / "order").read_text().split()


def the_build_goes_from_the_bottom_up(program):
    """tools/build.py over a kit that proves nothing: libraries first, each once, only those that have changed, and none after a failure."""
    with tempfile.TemporaryDirectory() as folder:
        top = pathlib.Path(folder)
        put_crates(top, "a:\nb: a\nc: a\nd: b c\njql: d a\n")

        def change(name, text):
            (top / "crates" / name / "src" / "lib.rt").write_text(text)

        change("c", "c wrong")
        status, told, order = build_crates(top, 2)
        if (status, sorted(order)) != (1, ["a", "b"]) or "c is not proved. The end of crates/c/out/build.log:\n\nbuilt from nothing with" not in told:
            return "after a failure", status, told, order
        change("c", "c")
        status, told, order = build_crates(top, 2)
        if order != ["c", "d", "jql"] or "3 of 5 crates are to be proved, 2 at a time" not in told or "[3/5] c" not in told:
            return "after its repair", status, told, order
        change("b", "b changed")
        status, told, order = build_crates(top, 2)
        return order != ["b", "d", "jql"] and ("after a change", status, told, order)


def the_longest_chain_goes_first(program):
    """A crate that begins the longest chain has two jobs, also if one lane is left, and the others run at niceness 10. Two lanes are not shared so, and
    with 8 GB of memory each crate has one job, and is built over what is kept."""
    with tempfile.TemporaryDirectory() as folder:
        top = pathlib.Path(folder)
        put_crates(top, "a:\nb: a\nc: a\nd: c\ne: d\nf: a\njql: e b f\n")
        kit = top / "bin" / "rt"
        two_lanes = {"a": (2, 0), "c": (1, 0), "b": (1, 0)}
        for lanes, memory, wants in ((3, 64, {"c": (2, 0), "b": (1, 10), "d": (2, 0), "jql": (2, 0)}), (2, 64, two_lanes), (2, 8, {"a": (1, 0), "jql": (1, 0)})):
            kit.write_text(FAKE_KIT.replace("64 << 30", f"{memory} << 30"))
            status, told, _ = build_crates(top, lanes)
            for name, (jobs, nicer) in wants.items():
                log = (top / "crates" / name / "out" / "build.log").read_text()
                how = "from nothing" if memory > 8 and name != "jql" else "over what is kept"
                if log != f"built {how} with --jobs {jobs} at niceness {min(19, os.getpriority(os.PRIO_PROCESS, 0) + nicer)}\n":
                    return name, lanes, status, told, log
            (top / "crates" / "a" / "src" / "lib.rt").write_text(f"a after {lanes} {memory}")
    return None


TESTS = [
    one_version_is_everywhere,
    the_completions_are_those_of_the_options,
    the_completions_have_the_options_of_help,
    an_archive_has_the_same_bytes_twice,
    a_debian_package_has_the_same_bytes_twice_and_works,
    what_is_installed_is_removed,
    the_released_program_is_that_of_its_sources,
    the_build_goes_from_the_bottom_up,
    the_longest_chain_goes_first,
]


def main():
    _, failed = run_tests("release.py", "tests of the release", TESTS, str(pathlib.Path(sys.argv[1]).resolve()))
    sys.exit(1 if failed else 0)


if __name__ == "__main__":
    main()
