#!/usr/bin/env python3
"""Compares the timeline of a laboratory with its journal: how many lines of each kind there are, and what they count.

    timeline_counts.py PROGRAM LAB..

PROGRAM is graftlab; each LAB is run by one worker, once for its journal and once for its timeline, which are the same run then. Prints a
line for each LAB, and for each difference another; ends with status 1 where there is one.
"""
import collections
import re
import subprocess
import sys
import tomllib

BEGINNING, END = b"\n%% journal 1\n", b"%% end\n"

# Lines by the kind of entry that they stand for: each has this pattern behind its round.
LINES = {
    4: r"\S+  stray segment of ",
    5: r"\S+ <- ",
    9: r"\S+  admitted ",
    10: r"\S+  refused ",
    11: r"\S+  froze ",
    12: r"\S+  sent ",
    13: r"\S+  landed ",
    14: r"\S+  turned back ",
    15: r"\S+  took back ",
    16: r"\S+  cleared ",
    17: r"\S+  said step\[",
    22: r"\S+  link lost ",
    26: r"operator  began group ",
    33: r"\S+  confirmed ",
}
COUNTED = (6, 7, 8)


def run(program, job, lab):
    with open(lab, "rb") as source:
        return subprocess.run([program, job, "--workers", "1"], stdin=source, capture_output=True).stdout


def entries(program, lab):
    """The entries of the journal, as clock, actor, kind and arguments; None of an input that isn't run."""
    out = run(program, "journal", lab)
    if BEGINNING not in out:
        return None
    first = out.rindex(BEGINNING) + len(BEGINNING)
    return [tuple(map(int, line.split())) for line in out[first : out.rindex(END)].splitlines()]


def expected(journal, lab):
    """How many lines of each kind the journal asks for."""
    with open(lab, "rb") as source:
        script = tomllib.load(source)
    kinds = collections.Counter(entry[2] for entry in journal)
    wanted = {kind: kinds[kind] for kind in LINES}
    wanted["UPDATE put"] = sum(entry[2] == 1 and entry[4] > 0 for entry in journal)
    wanted["repeated"] = sum(entry[2] in (20, 21) and entry[4] == 1 for entry in journal)
    steps = script.get("step", [])
    wanted["ordered"] = sum(entry[2] == 24 and steps[entry[3]]["do"] in ("graft", "evacuate") for entry in journal)
    names = [router["name"] for router in script["router"]]
    for number, name in enumerate(names):
        own = collections.Counter(entry[2] for entry in journal if entry[1] == number)
        wanted[f"counts of {name}"] = tuple(own[kind] for kind in COUNTED)
    return wanted, names


def found(lines, names):
    """How many lines of each kind the timeline has."""
    here = [line.split("  ", 1)[1] for line in lines if line.startswith("round ")]
    has = {kind: sum(re.match(pattern, line) is not None for line in here) for kind, pattern in LINES.items()}
    has["UPDATE put"] = sum(re.match(r"\S+ -> \S+  UPDATE", line) is not None for line in here)
    has["repeated"] = sum(re.match(r"\S+  link repeated ", line) is not None for line in here)
    has["ordered"] = sum(re.match(r"operator  ordered graft ", line) is not None for line in here)
    sums = {name: [0, 0, 0] for name in names}
    for line in here:
        counts = re.fullmatch(r"(\S+)  decided (\d+) told (\d+) heard (\d+)", line)
        if counts:
            for place in range(3):
                sums[counts[1]][place] += int(counts[place + 2])
    for name, of in sums.items():
        has[f"counts of {name}"] = tuple(of)
    return has


def totals(lines):
    """The last line by the lines of sessions and grafts."""
    opens = notices = withdrawn = 0
    for line in lines:
        session = re.fullmatch(r"session \S+  OPEN put (\d+) got (\d+)  NOTIFICATION put (\d+) got (\d+)", line)
        if session:
            put, got, notices_put, notices_got = map(int, session.groups())
            opens += max(put - 1, 0) + max(got - 1, 0)
            notices += notices_put + notices_got
        graft = re.fullmatch(r"graft \d+ rounds .* withdrawn (\d+)", line)
        if graft:
            withdrawn += int(graft[1])
    return f"total  further OPENs {opens}  NOTIFICATIONs {notices}  withdrawn from moved remotes {withdrawn}"


def main():
    program, labs = sys.argv[1], sys.argv[2:]
    wrong = 0
    for lab in labs:
        journal = entries(program, lab)
        if journal is None:
            print(f"{lab}: isn't run")
            continue
        lines = run(program, "timeline", lab).decode().splitlines()
        wanted, names = expected(journal, lab)
        has = found(lines, names)
        differences = [f"{what}: {wanted[what]} entries, {has[what]} in lines" for what in wanted if wanted[what] != has[what]]
        if not lines or lines[-1] != totals(lines):
            differences.append(f"the last line isn't {totals(lines)}")
        print(f"{lab}: {len(journal)} entries, {len(lines)} lines, {len(differences)} differences")
        for difference in differences:
            print(f"  {difference}")
        wrong += len(differences)
    sys.exit(1 if wrong else 0)


main()
