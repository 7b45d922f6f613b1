#!/usr/bin/env python3
"""Runs the tests of crates without proofs, so that a change is tried in a minute or two. The gate, .ci/run, is what proves.

    tools/quick.py [--jobs N] [CRATE ..]

Of a crate with no tests and no run it tries those that have some and cite it (the tests of router_core are in router_rows). With no names
it tries every crate that has tests, or a run with a wanted output: N side by side, as many as there are processors where N isn't given.
It proves nothing. The status is 1 where a test failed.
"""
import argparse
import concurrent.futures
import os
import pathlib
import re
import subprocess
import sys
import time

TOP = pathlib.Path(__file__).resolve().parent.parent
TEST = re.compile(r"^\s*#\[test\]", re.MULTILINE)
SECONDS = 600


def crates():
    """All crates, each with what it cites, as crates.txt lists them."""
    lines = (line.split(":") for line in (TOP / "crates.txt").read_text().splitlines() if line.strip() and not line.startswith("#"))
    return {name.split()[0]: cited.split() for name, cited in lines}


def has_tests(name):
    return any(TEST.search(file.read_text()) for file in (TOP / "crates" / name / "src").rglob("*.rt"))


def has_run(name):
    folder = TOP / "crates" / name
    return (folder / "src/main.rt").exists() and (folder / "stdout").exists()


def is_tried(name):
    return has_tests(name) or has_run(name)


def tests_of(name, cited_by):
    """The crate itself, or those with tests that cite it."""
    if name not in cited_by:
        sys.exit(f"no crate is named {name}")
    return [name] if is_tried(name) else [other for other, cited in cited_by.items() if name in cited and is_tried(other)]


def lines_of(file):
    return file.read_text().splitlines() if file.exists() else []


def tried(words, folder, stdin):
    with open(stdin if stdin.exists() else os.devnull, "rb") as given:
        return subprocess.run(["rt", "try", *words], cwd=folder, stdin=given, capture_output=True, timeout=SECONDS)


def run_fault(name):
    """What is wrong with the run of a program; None where it writes what it is to."""
    folder = TOP / "crates" / name
    data = [word for file in sorted(folder.glob("data/*")) for word in ("--data", f"{file.name}={file}")]
    ran = tried(["--seconds", str(SECONDS // 2), *data, "--", *lines_of(folder / "args")], folder, folder / "stdin")
    wanted = int((lines_of(folder / "status") or ["0"])[0])
    if ran.returncode != wanted:
        return f"status {ran.returncode} in place of {wanted}\n{ran.stderr.decode()[-1000:]}"
    told, expected = ran.stdout.decode(errors="replace").splitlines(), lines_of(folder / "stdout")
    for number, (line, other) in enumerate(zip(told, expected), 1):
        if line != other:
            return f"line {number} is {line!r} in place of {other!r}"
    return None if len(told) == len(expected) else f"{len(told)} lines in place of {len(expected)}"


def test_fault(name):
    """What is wrong with the tests of a crate; None where all pass."""
    folder = TOP / "crates" / name
    ran = tried(["--test"], folder, folder / "stdin")
    return None if ran.returncode == 0 else ran.stdout.decode()[-1500:] + ran.stderr.decode()[-500:]


def fault_of(name):
    begin = time.monotonic()
    try:
        fault = (test_fault(name) if has_tests(name) else None) or (run_fault(name) if has_run(name) else None)
    except subprocess.TimeoutExpired:
        fault = f"no end in {SECONDS} seconds"
    print(f"{name}: {'passed' if fault is None else 'FAILED'} ({time.monotonic() - begin:.0f} s)", flush=True)
    if fault is not None:
        print(fault, flush=True)
    return fault


def main():
    parser = argparse.ArgumentParser(description="Runs the tests of crates without proofs.")
    parser.add_argument("--jobs", type=int, default=os.cpu_count())
    parser.add_argument("crates", nargs="*", metavar="CRATE")
    words = parser.parse_args()
    cited_by = crates()
    names = list(dict.fromkeys(test for name in words.crates or cited_by if words.crates or is_tried(name) for test in tests_of(name, cited_by)))
    if not names:
        sys.exit("no crate with tests cites " + ", ".join(words.crates))
    with concurrent.futures.ThreadPoolExecutor(words.jobs) as pool:
        faults = [it for it in pool.map(fault_of, names) if it is not None]
    print(f"{len(names) - len(faults)} passed, {len(faults)} failed, none proved")
    return 1 if faults else 0


sys.exit(main())
