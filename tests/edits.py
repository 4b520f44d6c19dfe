#!/usr/bin/env python3
"""Tries the edits of tests/edits/CRATE, which the prover must refuse, as `rt must-fail` tries those of crates/CRATE/must-fail.

    tests/edits.py              those of all crates
    tests/edits.py jq_stream    those of one crate
    tests/edits.py --check      proves nothing: only whether each edit still applies, which the gate asks

The gate proves none of them, since a check of their crates takes minutes: `jq_stream`, `jq_script` and `jq_app` have one edit each in
their own must-fail/. The libraries below a crate are built first, if they have changed. The last line is 'N passed, M failed'.
"""
import os
import pathlib
import shutil
import sys

ROOT = pathlib.Path(__file__).resolve().parent.parent
sys.path.insert(0, str(ROOT / "tools"))
import build  # noqa: E402

ONE_JOB = ["--jobs", "1"]


def judge(kit, crate):
    """For each edit of a crate whether it was refused, and what to say."""
    if any(not low.is_built() and build.build_library(low, 1) for low in crate.below()):
        return [(False, f"{crate.name}: a library below it is not proved")]
    edits = sorted(map(str, (ROOT / "tests" / "edits" / crate.name).glob("*.edit")))
    if hasattr(kit, "must_fail_all"):
        return kit.must_fail_all(crate, edits, ONE_JOB)
    return judge_over_seed(kit, crate, edits)


def judge_over_seed(kit, crate, edits):
    """The same with a kit that tries one edit a call: each over what a check of the crate as it stands has proved."""
    room = kit.seeded(crate, ONE_JOB)
    if not room:
        return [(False, f"{crate.name}: not proved as it stands")]
    results = []
    try:
        for number, edit in enumerate(edits):
            over = f"{room}/{number}"
            kit.linked(f"{room}/seed", over)
            kind, text = kit.must_fail(crate, edit, ONE_JOB, over)
            results.append((kind in (kit.REFUSED, kit.AT_LIMIT), text))
    finally:
        shutil.rmtree(room, ignore_errors=True)
    return results


def check(kit, crate):
    """For each edit of a crate whether what it quotes stands in its file, and what to say."""
    for edit in sorted((ROOT / "tests" / "edits" / crate.name).glob("*.edit")):
        why = kit.read_edit(str(edit), crate.folder)[1]
        yield not why, f"{crate.name}/{edit.name}: {why or 'applies'}"


def main():
    os.chdir(ROOT)
    kit = build.load_kit()
    kit.rtlib.guarded()
    folders = {folder.name for folder in (ROOT / "tests" / "edits").iterdir()}
    tried, names = judge, set(sys.argv[1:]) or folders
    if names == {"--check"}:
        tried, names = check, folders
    if names - folders:
        sys.exit(f"no edits in tests/edits/ for {', '.join(sorted(names - folders))}")
    passed = failed = 0
    for crate in kit.rtlib.crates_below(str(ROOT)):
        for refused, text in tried(kit, crate) if crate.name in names else []:
            if tried is judge or not refused:
                print(text, flush=True)
            passed, failed = passed + refused, failed + (not refused)
    print(f"{passed} passed, {failed} failed")
    sys.exit(1 if failed else 0)


if __name__ == "__main__":
    main()
