#!/usr/bin/env python3
"""Installs the Debian package that `make deb` left into a fresh root, and runs what it installed there.

The root has the C library that the program links, and a shell's few files where bash is to complete. It needs root, for
chroot; where that or a tool is missing, it says so and skips the rest.
"""
import os
import pathlib
import re
import shutil
import subprocess
import sys
import tempfile

ROOT = pathlib.Path(__file__).resolve().parent.parent
PACKAGE = ROOT / "dist" / f"jql_{(ROOT / 'VERSION').read_text().strip()}_amd64.deb"
COMPLETE = "source /usr/share/bash-completion/completions/jql; COMP_WORDS=(jql --arg) COMP_CWORD=1; _jql; echo ${COMPREPLY[*]}"


def call(words, **how):
    """The status of a command and all that it writes."""
    ran = subprocess.run([str(word) for word in words], stdout=subprocess.PIPE, stderr=subprocess.STDOUT, text=True, **how)
    return ran.returncode, ran.stdout


def lacking():
    """Why nothing can be tested here, if nothing can."""
    tools = [tool for tool in ("dpkg", "dpkg-deb", "chroot", "ldd") if not shutil.which(tool)]
    return "it needs root" if os.geteuid() else f"there is no {tools[0]}" if tools else None


def copy_libraries(root, program):
    """Copies the libraries that a program links, and the loader, to their places in the root."""
    for path in re.findall(r"(/\S+) \(0x", call(["ldd", program])[1]):
        to = root / path.lstrip("/")
        to.parent.mkdir(parents=True, exist_ok=True)
        shutil.copy(path, to)


def fresh_root(top):
    root = top / "root"
    for name in ("var/lib/dpkg/info", "var/lib/dpkg/updates", "var/lib/dpkg/triggers", "bin", "tmp"):
        (root / name).mkdir(parents=True)
    # What the package depends on is copied below, so it is named as installed.
    libc = call(["dpkg-query", "-W", "-f", "${Version}", "libc6"])[1] or "9"
    (root / "var/lib/dpkg/status").write_text(
        f"Package: libc6\nStatus: install ok installed\nArchitecture: amd64\nVersion: {libc}\nMaintainer: nobody\nDescription: copied\n\n"
    )
    shutil.copy(shutil.which("bash"), root / "bin" / "bash")
    copy_libraries(root, root / "bin" / "bash")
    return root


def page_of(root):
    """The text of the installed man page by `mandoc` or `man`, or why there is none."""
    page = root / "usr/share/man/man1/jql.1.gz"
    for words in (["mandoc", "-T", "utf8", page], ["man", "-l", page]):
        if shutil.which(words[0]):
            return call(words, env={**os.environ, "MANPAGER": "cat", "MANWIDTH": "80"})[1]
    return None


def tests_of(root):
    """What is tested: a name, and whether it is so (None: skipped)."""
    program = ["chroot", root, "/usr/bin/jql"]
    page = page_of(root)
    return {
        "jql -c .a.b": call([*program, "-c", ".a.b"], input='{"a": {"b": [1, 2]}}') == (0, "[1,2]\n"),
        "jql --version": call([*program, "--version"]) == (0, f"jql {(ROOT / 'VERSION').read_text()}"),
        "man jql": None if page is None else "filter JSON texts" in page,
        "bash completes --arg": call(["chroot", root, "/bin/bash", "-c", COMPLETE])[1].split() == ["--arg", "--argjson"],
        "dpkg knows its files": "/usr/bin/jql" in call(["dpkg", f"--root={root}", "--listfiles", "jql"])[1],
    }


def main():
    why = lacking()
    if why:
        return print(f"skipped: the installation of the Debian package ({why})")
    if not PACKAGE.is_file():
        sys.exit(f"no {PACKAGE.relative_to(ROOT)}: run make deb")
    with tempfile.TemporaryDirectory() as folder:
        root = fresh_root(pathlib.Path(folder))
        status, told = call(["dpkg", f"--root={root}", "--force-not-root", "--log=/dev/null", "-i", PACKAGE])
        if status:
            sys.exit(told)
        copy_libraries(root, root / "usr/bin/jql")
        tests = tests_of(root)
        status, told = call(["dpkg", f"--root={root}", "--log=/dev/null", "-r", "jql"])
        tests["dpkg removes it"] = status == 0 and not (root / "usr/bin/jql").exists()
    for name, is_well in tests.items():
        print(f"{'skipped' if is_well is None else 'ok' if is_well else 'FAILED'}: {name}")
    failed = sum(is_well is False for is_well in tests.values())
    print(f"{len(tests) - failed} passed, {failed} failed")
    sys.exit(1 if failed else 0)


if __name__ == "__main__":
    main()
