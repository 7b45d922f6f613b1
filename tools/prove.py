#!/usr/bin/env python3
"""Proves a crate and all that it stands on, as many crates side by side as there are processors, and builds it where it is a program.

    tools/prove.py [--jobs N] [CRATE]

Without a name it does so of graftlab, the program; ./graftlab calls it where there is no program of the sources yet. What was proved before
and hasn't changed is kept, in crates/CRATE/out. One crate after another is what `rt lib` does by itself: two runs of it never work in one
folder, so each crate gets a folder of its own here, with links to what it stands on. The status is 1 where a crate isn't proved.
"""
import argparse
import concurrent.futures
import os
import pathlib
import shutil
import subprocess
import sys
import tempfile

TOP = pathlib.Path(__file__).resolve().parent.parent
CRATES = TOP / "crates"
# What a check takes at most, so that no more run than the memory holds.
BYTES_EACH = 4 << 30


def read_crates():
    """The line of each crate in crates.txt, and the crates of the repository that it uses."""
    lines = [line for line in (TOP / "crates.txt").read_text().splitlines() if line.strip() and not line.startswith("#")]
    line_of = {line.split(":")[0].split()[0]: line for line in lines}
    return line_of, {name: [word for word in line.split(":")[1].split() if word in line_of] for name, line in line_of.items()}


LINE, USES = read_crates()


def below(name, found=None):
    """The crates that a crate stands on, each after those below it, and itself last."""
    found = [] if found is None else found
    for used in USES[name]:
        if used not in found:
            below(used, found)
    if name not in found:
        found.append(name)
    return found


def size(name):
    """About how long a crate takes: its lines, of proofs a third of them."""
    files = [file for kind in ("src", "specs", "proofs") for file in (CRATES / name / kind).rglob("*") if file.is_file()]
    return 60 + sum(file.read_bytes().count(b"\n") // (3 if file.suffix == ".antt" else 1) for file in files)


def linked(source, target):
    """A file at another place, without copying it where that can be."""
    try:
        os.link(source, target)
    except OSError:
        shutil.copy2(source, target)


def lay_out(name, room):
    """A repository of this crate and those below it, with what was proved of these."""
    (room / "crates").mkdir()
    names = below(name)
    (room / "crates.txt").write_text("".join(f"{LINE[each]}\n" for each in names))
    shutil.copy2(TOP / "HANDLES", room)
    for each in names:
        without = shutil.ignore_patterns("out" if each == name else "incremental")
        shutil.copytree(CRATES / each, room / "crates" / each, copy_function=linked, ignore=without)


def prove(name, jobs):
    """Proves one crate whose libraries are proved. What was said, where it isn't proved."""
    with tempfile.TemporaryDirectory(prefix="graftlab-prove-") as folder:
        room = pathlib.Path(folder)
        lay_out(name, room)
        work, kept = room / "crates" / name, CRATES / name / "out"
        if kept.exists():
            shutil.move(kept, work / "out")
        is_program = (work / "src/main.rt").exists()
        words = ["rt", "run"] if is_program else ["rt", "lib", "--jobs", str(jobs)]
        ran = subprocess.run(words, cwd=work, stdin=subprocess.DEVNULL, stdout=subprocess.PIPE, stderr=subprocess.STDOUT)
        if (work / "out").exists():
            shutil.move(work / "out", kept)
        # A program's own status, without words or input, says nothing of the proof: what counts is that it was built.
        is_proved = (kept / name).exists() if is_program else ran.returncode == 0
        return None if is_proved else ran.stdout.decode(errors="replace")


def lanes():
    """As many as there are processors, and as the free memory holds."""
    lines = pathlib.Path("/proc/meminfo").read_text().splitlines()
    free = next(int(line.split()[1]) for line in lines if line.startswith("MemAvailable:")) << 10
    return max(1, min(len(os.sched_getaffinity(0)), free // BYTES_EACH))


def prove_all(name, count):
    """Proves all, first those with the longest chain of others behind them. The crates that aren't proved, with what was said of them."""
    names = below(name)
    behind = {}
    for each in reversed(names):
        behind[each] = size(each) + max((behind[other] for other in names if each in USES[other]), default=0)
    left, running, done, failed = sorted(names, key=lambda each: -behind[each]), {}, set(), {}
    at = 0
    with concurrent.futures.ThreadPoolExecutor(count) as pool:
        while running or (left and not failed):
            ready = [each for each in left if all(used in done for used in USES[each])] if not failed else []
            for each in ready[: count - len(running)]:
                left.remove(each)
                at += 1
                print(f"graftlab: crate {at} of {len(names)}: {each}", file=sys.stderr, flush=True)
                spare = max(1, (count - len(running)) // max(1, len(ready)))
                running[pool.submit(prove, each, spare)] = each
            for ended in concurrent.futures.wait(running, return_when=concurrent.futures.FIRST_COMPLETED).done:
                each, why = running.pop(ended), ended.result()
                done.add(each)
                if why is not None:
                    failed[each] = why
    return failed


def main():
    words = argparse.ArgumentParser(description=__doc__, formatter_class=argparse.RawDescriptionHelpFormatter)
    words.add_argument("--jobs", type=int, default=lanes())
    words.add_argument("crate", nargs="?", default="graftlab", choices=sorted(LINE), metavar="CRATE")
    asked = words.parse_args()
    failed = prove_all(asked.crate, max(1, asked.jobs))
    for name, why in failed.items():
        print(f"{why}graftlab: {name} isn't proved", file=sys.stderr)
    return 1 if failed else 0


if __name__ == "__main__":
    sys.exit(main())
