#!/usr/bin/env python3
"""Counts instructions of a part of graftlab by callgrind, for the tables of docs/MEASURED.md.

    tools/costs/count.py [--folder FOLDER] [--plain] trie [PREFIXES [ORDER]]
    tools/costs/count.py [--folder FOLDER] [--plain] rib [PREFIXES [ORDER]]
    tools/costs/count.py [--program PROGRAM] run [PREFIXES]
    tools/costs/count.py [--program PROGRAM] drill [SEEDS]
    tools/costs/count.py [--program PROGRAM] check

`trie` prints what each call of a table of prefixes takes, by the functions `stage_..` of trie.rattle; ORDER is `mixed` or `rising`, and
PREFIXES at most 65,536. `rib` prints what a router's tables take for each prefix, as differences of runs that end a stage earlier; ORDER is
`prefixes` or `sources`. Numbers may be several, with commas between them. With --plain the same work is counted of plain Rust (plain/*.rs,
built with `rustc -O`).

The program of `trie` and `rib` is proved and built in a copy of the repository, FOLDER, which is made where it isn't there and can be kept
for the next count: what the program stands on is proved there first, some minutes for `trie` and half an hour for `rib`.

`run`, `drill` and `check` count whole runs of graftlab, PROGRAM, which is by default the one that the gate left: `run` by one worker on the
laboratories of scaled_labs.py, `drill` by one worker, and `check` on the texts of large_inputs.py, for each byte. All need valgrind.
"""
import argparse
import os
import pathlib
import re
import subprocess
import sys
import tempfile
from collections import Counter

HERE = pathlib.Path(__file__).resolve().parent
TOP = HERE.parent.parent
sys.path.insert(0, str(TOP / "tools"))
import scaled_labs

USES = {
    "trie": "prefix_trie bgp_types anyhow",
    "rib": "rib_stages bgp_types anyhow",
}
DEFAULTS = {"trie": ("65536", "mixed"), "rib": ("2000", "prefixes"), "run": ("500,1000,2000,4000", ""), "drill": ("7", ""), "check": ("", "")}


def run(words, **more):
    subprocess.run(words, check=True, **more)


def built(name, folder):
    """The proved program of this name, built in a copy of the repository."""
    copy = folder / "repository"
    if not copy.exists():
        run(["git", "clone", "-q", str(TOP), str(copy)])
    crate = copy / "crates" / f"{name}_cost"
    (crate / "src").mkdir(parents=True, exist_ok=True)
    (crate / "src/main.rt").write_text((HERE / f"{name}.rattle").read_text())
    crates = copy / "crates.txt"
    line = f"{name}_cost: {USES[name]}\n"
    if line not in crates.read_text():
        crates.write_text(crates.read_text() + line)
    print(f"proving and building {name}_cost in {copy}", file=sys.stderr)
    first = input_of(name, "16", DEFAULTS[name][1], 1)
    run(["rt", "run"], cwd=crate, input=first, text=True, stdout=sys.stderr)
    return crate / "out" / f"{name}_cost"


def built_plain(name, folder):
    folder.mkdir(parents=True, exist_ok=True)
    program = folder / f"plain_{name}"
    run(["rustc", "-O", "--cfg", "room", "-o", str(program), str(HERE / "plain" / f"{name}.rs")])
    return program


def input_of(name, prefixes, order, stages):
    return f"{prefixes} {order}" if name == "trie" else f"{prefixes} {stages} {order}"


def counted(program, text, *more):
    """What the run takes in all, and within each function `stage_..`."""
    with tempfile.TemporaryDirectory() as room:
        out = f"{room}/counts"
        words = ["valgrind", "--tool=callgrind", f"--callgrind-out-file={out}", "--compress-strings=no", "--compress-pos=no", str(program), *more]
        run(words, input=text, text=True, stdout=subprocess.DEVNULL, stderr=subprocess.DEVNULL)
        lines = pathlib.Path(out).read_text(errors="replace").splitlines()
    stage = re.compile(r"(?:^|::)stage_(\w+?)(?:::h[0-9a-f]{16})?$")
    within, total, caller, called, is_call = Counter(), 0, "", "", False
    for line in lines:
        if line.startswith("fn="):
            caller = line[3:].strip()
        elif line.startswith("cfn="):
            called = line[4:].strip()
        elif line.startswith("calls="):
            is_call = True
        elif line.startswith(("summary:", "totals:")):
            total = int(line.split()[1])
        elif is_call and re.match(r"^[+\-*\d]", line):
            found = stage.search(called)
            if found and not stage.search(caller):
                within[found.group(1)] += int(line.split()[1])
            is_call = False
    return total, within


def count_trie(program, prefixes, order):
    _, within = counted(program, input_of("trie", prefixes, order, 0))
    each = "; ".join(f"{name.replace('_', ' ')} {total / int(prefixes):,.0f}" for name, total in within.items())
    print(f"{prefixes} {order}: {each}", flush=True)


def count_rib(program, prefixes, order):
    one, two, three = (counted(program, input_of("rib", prefixes, order, stages))[0] / int(prefixes) for stages in (1, 2, 3))
    print(f"{prefixes} {order}: set {one:,.0f}; decided {two - one:,.0f}; told {three - two:,.0f}; all {three:,.0f}", flush=True)


def count_run(program, prefixes):
    total, _ = counted(program, "".join(scaled_labs.text(int(prefixes), 7)), "run", "--workers", "1")
    print(f"{prefixes} prefixes: {total / 1e6:,.0f} million", flush=True)


def count_drill(program, seed):
    total, _ = counted(program, "", "drill", seed, "--workers", "1")
    print(f"drill {seed}: {total / 1e6:,.0f} million", flush=True)


def count_checks(program):
    with tempfile.TemporaryDirectory() as room:
        run([sys.executable, str(TOP / "tools/large_inputs.py"), room])
        for file in sorted(pathlib.Path(room).iterdir(), key=lambda file: (file.stem.split("-")[0], file.stat().st_size)):
            text = file.read_text()
            total, _ = counted(program, text, "check")
            print(f"{file.stem}: {len(text):,} bytes, {total / len(text):,.1f} a byte", flush=True)


def main():
    words = argparse.ArgumentParser(description=__doc__, formatter_class=argparse.RawDescriptionHelpFormatter)
    words.add_argument("--folder", type=pathlib.Path)
    words.add_argument("--plain", action="store_true")
    words.add_argument("--program", type=pathlib.Path, default=TOP / "crates/graftlab/out/graftlab")
    words.add_argument("name", choices=DEFAULTS)
    words.add_argument("prefixes", nargs="?")
    words.add_argument("order", nargs="?")
    asked = words.parse_args()
    prefixes = asked.prefixes or DEFAULTS[asked.name][0]
    order = asked.order or DEFAULTS[asked.name][1]
    if asked.name == "check":
        return count_checks(asked.program)
    if asked.name in ("run", "drill"):
        for number in prefixes.split(","):
            (count_run if asked.name == "run" else count_drill)(asked.program, number)
        return None
    with tempfile.TemporaryDirectory() as room:
        folder = asked.folder or pathlib.Path(room)
        program = (built_plain if asked.plain else built)(asked.name, folder)
        count = count_trie if asked.name == "trie" else count_rib
        for number in prefixes.split(","):
            count(program, number, order)


if __name__ == "__main__":
    main()
