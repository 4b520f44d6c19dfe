#!/usr/bin/env python3
"""Packs ./jql with its man page and its completions: as an archive, or as a Debian package. Both go into dist/.

    tools/package.py archive   dist/jql-VERSION-x86_64-linux.tar.gz
    tools/package.py deb       dist/jql_VERSION_amd64.deb

The version is that of the file VERSION. The same tree and program give the same bytes: names are sorted, and owners and times
are fixed.
"""
import hashlib
import io
import os
import pathlib
import re
import subprocess
import sys
import tarfile
import tempfile

ROOT = pathlib.Path(__file__).resolve().parent.parent
DIST = ROOT / "dist"
# The time of each packed file: the first that any archive can hold.
TIME = 315532800
CONTROL = """Package: jql
Version: {version}
Architecture: amd64
Maintainer: The authors of jql <jql@example.invalid>
Section: utils
Priority: optional
Depends: libc6 (>= {libc})
Installed-Size: {size}
Description: filter of JSON texts that is proved to do what its definitions say
 jql runs filters in the language of jq 1.7 over files and standard input,
 with whole numbers of 64 bits and sorted keys. Every function of it is proved
 to meet its contract.
"""


def version():
    return (ROOT / "VERSION").read_text().strip()


def read(name):
    return (ROOT / name).read_bytes()


def program():
    path = ROOT / "jql"
    return path.read_bytes() if path.is_file() else sys.exit("no ./jql: run make first")


def gzipped(data):
    return subprocess.run(["gzip", "-9n"], input=data, stdout=subprocess.PIPE, check=True).stdout


def archive():
    """Packs a folder whose name says what it holds, with the sums of its files in SHA256SUMS."""
    name = f"jql-{version()}-x86_64-linux"
    names = ["README.md", "CHANGELOG.md", *[it for it in ["LICENSE"] if (ROOT / it).is_file()]]
    files = {"jql": program(), "jql.1": read("docs/jql.1"), **{it: read(it) for it in names}}
    files.update({f"completions/{path.name}": path.read_bytes() for path in (ROOT / "completions").iterdir()})
    files["SHA256SUMS"] = "".join(f"{hashlib.sha256(files[it]).hexdigest()}  {it}\n" for it in sorted(files)).encode()
    packed = io.BytesIO()
    with tarfile.open(fileobj=packed, mode="w", format=tarfile.USTAR_FORMAT) as tar:
        for it in sorted(files):
            entry = tarfile.TarInfo(f"{name}/{it}")
            entry.size, entry.mtime, entry.mode = len(files[it]), TIME, 0o755 if it == "jql" else 0o644
            tar.addfile(entry, io.BytesIO(files[it]))
    return leave(f"{name}.tar.gz", gzipped(packed.getvalue()))


def leave(name, data):
    DIST.mkdir(exist_ok=True)
    (DIST / name).write_bytes(data)
    print(f"{hashlib.sha256(data).hexdigest()}  dist/{name}")


def files_of_the_package():
    return {
        "usr/bin/jql": program(),
        "usr/share/man/man1/jql.1.gz": gzipped(read("docs/jql.1")),
        "usr/share/bash-completion/completions/jql": read("completions/jql.bash"),
        "usr/share/zsh/vendor-completions/_jql": read("completions/_jql"),
        "usr/share/fish/vendor_completions.d/jql.fish": read("completions/jql.fish"),
        "usr/share/doc/jql/README.md": read("README.md"),
        "usr/share/doc/jql/changelog.gz": gzipped(read("CHANGELOG.md")),
    }


def control_of(files):
    """The control file: the C library that the program needs is the newest version that a symbol of it names."""
    needs = re.findall(rb"GLIBC_(\d+)\.(\d+)", files["usr/bin/jql"])
    libc = ".".join(map(str, max((tuple(map(int, it)) for it in needs), default=(2, 17))))
    size = sum(len(data) + 1023 >> 10 for data in files.values())
    return CONTROL.format(version=version(), libc=libc, size=size).encode()


def deb():
    files = files_of_the_package()
    files["DEBIAN/control"] = control_of(files)
    with tempfile.TemporaryDirectory() as folder:
        top, made = pathlib.Path(folder, "package"), pathlib.Path(folder, "made.deb")
        for name, data in files.items():
            path = top / name
            path.parent.mkdir(parents=True, exist_ok=True)
            path.write_bytes(data)
            path.chmod(0o755 if name == "usr/bin/jql" else 0o644)
        for path in [top, *top.rglob("*")]:
            if path.is_dir():
                path.chmod(0o755)
            os.utime(path, (TIME, TIME))
        surroundings = {**os.environ, "SOURCE_DATE_EPOCH": str(TIME)}
        words = ["dpkg-deb", "--root-owner-group", "-Zgzip", "--build", top, made]
        subprocess.run(words, env=surroundings, stdout=subprocess.DEVNULL, check=True)
        leave(f"jql_{version()}_amd64.deb", made.read_bytes())


if __name__ == "__main__":
    commands = {"archive": archive, "deb": deb}
    if len(sys.argv) != 2 or sys.argv[1] not in commands:
        sys.exit(__doc__)
    commands[sys.argv[1]]()
