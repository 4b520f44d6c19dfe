#!/usr/bin/env python3
"""Proves and builds the program: the libraries that `jql` stands on side by side, lowest first, then `jql` itself, as ./jql.

    tools/build.py           as many crates at a time as there are processors, and memory for them
    JOBS=2 tools/build.py    at most two at a time

What was proved before is kept: a crate is built again only if its sources, those of a crate below it, its line of crates.txt
or the kit have changed (the stamp that `rt` keeps in crates/NAME/out/rlib). The log of a crate is crates/NAME/out/build.log.

This loads the kit's `rt` as a module and builds each library as `rt ci` does: from nothing, and with its statements alone. With
the checked proofs in them too, as `rt lib` writes them, the libraries take gigabytes, and a prover high up loads for minutes; but
the check of one crate takes less memory, so it is done where there is little.
Calls of `rt` itself cannot run side by side: each locks the folder of every crate below its own. And `rt run` alone would first
read the sources of the whole program in one pass, which takes minutes and 10 GB.
"""
import importlib.machinery
import importlib.util
import os
import pathlib
import re
import shutil
import signal
import sys
import threading
import time
from concurrent.futures import FIRST_COMPLETED, Future, wait

import release

ROOT = pathlib.Path(__file__).resolve().parent.parent
PROGRAM = "jql"
# Memory for one crate at a time, in bytes: the largest takes less.
LANE = 3_500_000_000
# A crate takes this time if docs/GATE.md has no row for it: so long to load its libraries, and so long for a line.
MINUTES_TO_LOAD, MINUTES_A_LINE = 0.15, 1 / 1500
# The most jobs for one crate (two take a third off its time; each job loads the libraries below, so more take hardly less time and much
# more of the processors), and the silence after which a line says what runs.
JOBS_AT_MOST, SECONDS_OF_SILENCE = 2, 45
# Memory for a crate of two jobs, in bytes: with less of it free a crate has one. With less at the start, libraries are built as `rt lib`
# does, over what is kept: from nothing one crate takes over 6 GB.
TWO_JOBS = 9_000_000_000
# A crate that begins the longest chain, or one that is shorter by at most this part, goes before the others from this number of lanes on:
# it gets all its jobs also where no lane is idle, and the processors first, since the others run with this niceness.
LANES_TO_SHARE, NEARLY, NICENESS = 3, 0.05, 10
LINES_OF_A_LOG = 40


# ---- the kit


def load_kit():
    """The module of `rt`, which knows the crates and how each is built."""
    where = shutil.which("rt")
    if not where:
        sys.exit("there is no rt on the PATH: proving needs the Rattle kit (README.md names it)")
    where = os.path.realpath(where)
    loader = importlib.machinery.SourceFileLoader("rt_of_the_kit", where)
    kit = importlib.util.module_from_spec(importlib.util.spec_from_loader("rt_of_the_kit", loader))
    kit.__file__ = where
    loader.exec_module(kit)
    names_of_crate = ("below", "stamp", "is_built", "build_rlib", "run", "cuts_libraries")
    parts = {kit: ("processors", "free", "read_files"), kit.rtlib.Crate: names_of_crate}
    lacking = [name for part, names in parts.items() for name in names if not hasattr(part, name)]
    if lacking:
        sys.exit(f"{where} is of another kit than tools/build.py is written for: it has no {', '.join(lacking)}")
    walk_once(kit.rtlib.Crate)
    return kit


def walk_once(crate_class):
    """Has rt's two walks over the crates below a crate visit each of them once, and not once for each way that leads to it."""
    find_below, sum_up = crate_class.below, crate_class.stamp
    found, call = {}, threading.local()

    def below(crate):
        if crate.folder not in found:
            found[crate.folder] = find_below(crate)
        return list(found[crate.folder])

    def stamp(crate):
        # Sources can change between two calls, so the sums are kept only during the outermost call.
        sums = getattr(call, "sums", None)
        if sums is None:
            call.sums = {}
            try:
                return stamp(crate)
            finally:
                call.sums = None
        if crate.folder not in sums:
            sums[crate.folder] = sum_up(crate)
        return sums[crate.folder]

    crate_class.below, crate_class.stamp = below, stamp


def load_crates(kit):
    """The program and each library that it stands on, lowest first."""
    program = kit.rtlib.Crate(str(ROOT / "crates" / PROGRAM), str(ROOT), {})
    kit.read_files(program)
    crates = [*program.below(), program]
    for crate in crates:
        kit.rtlib.stop_on_links(crate.folder)
    # Held until this process ends, so that no other rt works here.
    program.held = []
    kit.rtlib.lock(crates)
    return crates


def is_up_to_date(kit, crate):
    if not crate.is_program:
        return crate.is_built()
    made = f"{crate.folder}/out/{crate.name}"
    return kit.rtlib.text_of(f"{made}.stamp") == crate.stamp() + kit.rtlib.sum_of(made)


def build_library(crate, jobs):
    """Proves a library from nothing and writes its statements. The stamp says to `rt` that the library is built."""
    stamp, crate.cuts_libraries = crate.stamp(), True
    status = crate.build_rlib(["--jobs", str(jobs)], anew=True)
    if status == 0 and stamp == crate.stamp():
        pathlib.Path(crate.folder, "out", "rlib", "stamp").write_text(stamp)
    return status


def build(crate, jobs, niceness, saves_memory):
    """Builds one crate, all below it being built, and answers whether it was proved. What this thread starts has its niceness."""
    os.setpriority(os.PRIO_PROCESS, threading.get_native_id(), os.getpriority(os.PRIO_PROCESS, 0) + niceness)
    out = pathlib.Path(crate.folder, "out")
    out.mkdir(exist_ok=True)
    with open(out / "build.log", "w") as crate.out:
        try:
            if crate.is_program:
                return crate.run(["--jobs", str(jobs)], ["--version"]) == 0
            if saves_memory:
                return crate.build_rlib(["--jobs", str(jobs)], anew=False) == 0
            return build_library(crate, jobs) == 0
        except (Exception, SystemExit) as error:
            print(f"{type(error).__name__}: {error}", file=crate.out)
            return False


# ---- how long it takes


def minutes_of_the_gate():
    """The processor minutes of crates in the table of docs/GATE.md, by name: its columns `crate` and `minutes` (or `proof`)."""
    minutes, column = {}, None
    page = ROOT / "docs" / "GATE.md"
    for line in page.read_text().splitlines() if page.is_file() else []:
        cells = [cell.strip().strip("`*") for cell in line.strip().strip("|").split("|")]
        titles = [cell.lower() for cell in cells]
        if titles[0] == "crate":
            named = [at for at, title in enumerate(titles) if "minutes" in title or title == "proof"]
            column = named[0] if named else None
        elif not line.startswith("|"):
            column = None
        elif column is not None and column < len(cells) and (number := re.match(r"[0-9]+(\.[0-9]+)?", cells[column])):
            minutes.setdefault(cells[0], float(number[0]))
    return minutes


def minutes_by_size(crate):
    files = [path for part in ("src", "proofs") for path in pathlib.Path(crate.folder, part).rglob("*") if path.is_file()]
    return MINUTES_TO_LOAD + MINUTES_A_LINE * sum(path.read_bytes().count(b"\n") for path in files)


def chains_of(crates, minutes):
    """For each crate the minutes of the longest chain of crates that begins with it, in which each uses the one before it."""
    chains = dict(minutes)
    for crate in reversed(crates):
        for low in crate.deps:
            if low.name in chains and crate.name in chains:
                chains[low.name] = max(chains[low.name], minutes[low.name] + chains[crate.name])
    return chains


def lanes_for(kit):
    """How many crates at a time: JOBS, else one a processor, and at most as many as memory holds."""
    wanted = os.environ.get("JOBS", "")
    wanted = int(wanted) if wanted.isdigit() and int(wanted) else kit.processors()
    return min(wanted, max(1, int(kit.free() // LANE)))


# ---- the run


def clock(seconds):
    minutes, seconds = divmod(int(seconds), 60)
    return f"{minutes}m{seconds:02}s" if minutes else f"{seconds}s"


def started(call, *arguments):
    """The future of a call in a thread of its own: a thread cannot take back its niceness, so none is used again."""
    future = Future()

    def answer():
        try:
            future.set_result(call(*arguments))
        except BaseException as error:
            future.set_exception(error)

    threading.Thread(target=answer, daemon=True).start()
    return future


class Run:
    """A run over crates: those that are done, those that run (a future's crate, start and jobs), and those that are left."""

    def __init__(self, crates, lanes, chains, free):
        self.crates, self.lanes, self.chains, self.free = crates, lanes, chains, free
        self.left = sorted((crate for crate in crates if crate.name in chains), key=lambda crate: -chains[crate.name])
        self.done = {crate.name for crate in crates} - {crate.name for crate in self.left}
        self.saves_memory = free() < TWO_JOBS
        self.running, self.failed, self.silent_since = {}, [], time.monotonic()

    def say(self, text):
        self.silent_since = time.monotonic()
        print(text, flush=True)

    def is_first(self, crate):
        """Whether this crate begins the longest chain that is left, or nearly, and there are lanes enough to put it before the others."""
        begun = [it for it, _, _ in self.running.values()]
        longest = max(self.chains[it.name] for it in [*self.left, *begun])
        return self.lanes >= LANES_TO_SHARE and self.chains[crate.name] >= (1 - NEARLY) * longest

    def start(self):
        """Starts crates whose libraries are all done. One that goes before the others has its jobs also where no lane is idle; lanes that no
        other crate needs go to the next ones."""
        ready = [crate for crate in self.left if all(low.name in self.done for low in crate.deps)]
        for at, crate in enumerate(ready):
            idle = self.lanes - sum(jobs for _, _, jobs in self.running.values())
            is_first = self.is_first(crate)
            if idle < 1 and not is_first:
                return
            most = JOBS_AT_MOST if self.free() >= TWO_JOBS else 1
            jobs = most if is_first else min(most, max(1, idle - (len(ready) - at - 1)))
            self.left.remove(crate)
            niceness = 0 if is_first or self.lanes < LANES_TO_SHARE else NICENESS
            self.running[started(build, crate, jobs, niceness, self.saves_memory)] = crate, time.monotonic(), jobs

    def end(self, future):
        crate, since, _ = self.running.pop(future)
        took = clock(time.monotonic() - since)
        if not future.result():
            self.failed.append(crate)
            return self.say(f"FAILED  {crate.name}  {took}")
        self.done.add(crate.name)
        names = ", ".join(crate.name for crate, _, _ in self.running.values())
        width = len(str(len(self.crates)))
        self.say(f"[{len(self.done):{width}}/{len(self.crates)}] {crate.name}  {took}" + (f"  (running: {names})" if names else ""))

    def tell_what_runs(self):
        now = time.monotonic()
        self.say("still running: " + ", ".join(f"{crate.name} since {clock(now - since)}" for crate, since, _ in self.running.values()))

    def go(self):
        while True:
            if not self.failed:
                self.start()
            if not self.running:
                return
            left = SECONDS_OF_SILENCE - (time.monotonic() - self.silent_since)
            for future in wait(self.running, max(0.1, left), FIRST_COMPLETED).done:
                self.end(future)
            if self.running and time.monotonic() - self.silent_since >= SECONDS_OF_SILENCE:
                self.tell_what_runs()


def tell_failures(failed):
    for crate in failed:
        log = pathlib.Path(crate.folder, "out", "build.log")
        print(f"\n{crate.name} is not proved. The end of {log.relative_to(ROOT)}:\n")
        print("\n".join(log.read_text(errors="replace").splitlines()[-LINES_OF_A_LOG:]), flush=True)


def tell_plan(crates, lanes, minutes, chains):
    total, longest = sum(minutes.values()), max(chains.values())
    print(f"{len(minutes)} of {len(crates)} crates are to be proved, {lanes} at a time. This takes about {max(total / lanes, longest):.0f} minutes", end="")
    print(f" ({total:.0f} processor minutes; the longest chain of crates takes {longest:.0f}).", flush=True)


def stop(*_):
    # The kit ends what it started once this process has ended.
    os.write(1, b"\nstopped; what was proved is kept\n")
    os._exit(130)


def main():
    started = time.monotonic()
    os.chdir(ROOT)
    kit = load_kit()
    # Starts the process that ends all others. (It must start before the first thread.)
    kit.rtlib.guarded()
    for it in (signal.SIGINT, signal.SIGTERM, signal.SIGHUP):
        signal.signal(it, stop)
    crates, known = load_crates(kit), minutes_of_the_gate()
    minutes = {it.name: known.get(it.name, minutes_by_size(it)) for it in crates if not is_up_to_date(kit, it)}
    chains, lanes = chains_of(crates, minutes), lanes_for(kit)
    if minutes:
        tell_plan(crates, lanes, minutes, chains)
    run = Run(crates, lanes, chains, kit.free)
    run.go()
    tell_failures(run.failed)
    if run.failed:
        sys.exit(1)
    release.write_program(release.PROGRAM, release.stripped(ROOT / "crates" / PROGRAM / "out" / PROGRAM))
    print(f"./{PROGRAM} is proved and built, in {clock(time.monotonic() - started)}", flush=True)


if __name__ == "__main__":
    main()
