#!/usr/bin/env python3
"""Imports recorded sessions of real daemons, runs and moves them, and compares what is heard with the daemons' own tables.

    tools/import_daemons.py PROGRAM [FOLDER]

It needs nothing but Python and recordings: those of record_daemons.py in FOLDER, else those of tools/recordings. Of each it imports the
capture by PROGRAM and compares the text, octet by octet, with that of import_again.py. Then it runs the laboratory, by one and two workers:
as it is; with its graft step, which the text has as a comment, at the end, and between any two raw steps, each both as it stands there and
behind a settle; and with raw steps of one message each, and grafts to and fro between them. Of each run it compares the routes that the
session has heard (`show --json`) with the daemon's table: all prefixes, AS paths, origins and MEDs.

A line for each recording tells its routes, how many runs there were, what became of the grafts and how many differences there are; each
difference has a line in front of it. The status is 1 where there is a difference, or a run ended otherwise than settled.
"""
import collections
import glob
import json
import os
import re
import subprocess
import sys

import import_again

GRAFT = '[[step]]\ndo = "graft"\npeering = "{}"\nto = "{}"\n\n'
SETTLE = '[[step]]\ndo = "settle"\n\n'
RAW = re.compile(r'\[\[step\]\]\ndo = "raw"\npeering = "(\w+)"\nhex = "([0-9a-f]+)"\n\n')


def ask(program, *words, given):
    return subprocess.run([program, *words], input=given, capture_output=True)


def plain(path):
    """A path whose sets are in order, so that it can be compared."""
    return [sorted(part) if isinstance(part, list) else part for part in path]


def read_table(file):
    """What a recording says of its daemon, and its table."""
    with open(file) as lines:
        head = json.loads(next(lines))
        table = {prefix: (plain(path), origin, med) for (path, origin, med), prefixes in map(json.loads, lines) for prefix in prefixes.split()}
    return head, table


def heard(shown, peering, no_med):
    """The routes that a session has heard, in what `show --json` writes. An absent MED is as the daemon's tool shows it."""
    routes = next(it for it in shown["peerings"] if it["name"] == peering)["routes"]["heard"]
    attributes = {it["prefix"]: it["attrs"] for it in routes}
    return {prefix: (plain(it["path"]), it["origin"], no_med if it["med"] is None else it["med"]) for prefix, it in attributes.items()}


def splits(text):
    """The parts of a laboratory: what stands in front of its steps, the steps, each as a peering and its octets, and what stands behind."""
    steps = [(it[1], bytes.fromhex(it[2])) for it in RAW.finditer(text)]
    found = list(RAW.finditer(text))
    begin, end = (found[0].start(), found[-1].end()) if found else (text.index('[[step]]\ndo = "settle"'),) * 2
    return text[:begin], steps, text[end:]


def raw(step):
    return f'[[step]]\ndo = "raw"\npeering = "{step[0]}"\nhex = "{step[1].hex()}"\n\n'


def variants(text):
    """Laboratories, each with its name: the text itself, and with grafts at other places."""
    head, steps, tail = splits(text)
    yield "as it is", text
    # The last commented step without its signs, as a user would have it.
    yield "at the end", head + "".join(map(raw, steps)) + re.sub(r"^# (?=\[\[|do|peering|to)", "", tail, flags=re.M)
    name = re.search(r'^name = "(p\d+)"', text, re.M)[1]
    graft = GRAFT.format(name, "r2")
    for place in range(len(steps) + 1):
        before, behind = "".join(map(raw, steps[:place])), "".join(map(raw, steps[place:]))
        yield f"graft before raw step {place + 1}", head + before + graft + behind + tail
        yield f"settle and graft before raw step {place + 1}", head + before + SETTLE + graft + behind + tail
    messages = [(peering, message) for peering, octets in steps for message in import_again.messages(octets)[0]]
    parts, turn = [head, SETTLE], 0
    for place, message in enumerate(messages):
        parts.append(raw(message))
        if place % max(len(messages) // 20, 1) == 0:
            parts.append((GRAFT if place % 2 else SETTLE + GRAFT).format(name, ("r2", "r1")[turn]))
            turn = 1 - turn
    yield "a message a step, moved to and fro", "".join(parts) + tail


class Case:
    """A recording, and what became of its runs."""

    def __init__(self, program, file):
        self.program, self.name = program, os.path.basename(file).removesuffix(".json")
        self.head, self.table = read_table(file)
        with open(file.removesuffix(".json") + ".pcap", "rb") as capture:
            self.capture = capture.read()
        self.grafts, self.runs, self.faults = collections.Counter(), 0, []

    def imported(self):
        """The text of the laboratory, which must be that of the second reading."""
        home = [self.head["home"]] if self.head["home"] else []
        answer = ask(self.program, "import", *home, given=self.capture)
        text = answer.stdout.decode()
        own = import_again.answer(self.capture, bytes(map(int, home[0].split("."))) if home else None)
        if (answer.returncode, text) != own or answer.stderr:
            self.faults.append(f"import: status {answer.returncode} and {text[:60]!r}, where import_again.py has {own[0]} and {own[1][:60]!r}")
        return text if answer.returncode == 0 else None

    def run(self, what, text):
        """Runs a laboratory, and compares the routes that its session has heard."""
        peering = re.search(r'^name = "(p\d+)"', text, re.M)[1]
        for workers in ("1", "2"):
            self.runs += 1
            shown = ask(self.program, "show", "--json", "--workers", workers, given=text.encode())
            report = ask(self.program, "run", "--workers", workers, given=text.encode())
            if shown.returncode or report.returncode or shown.stderr or report.stderr:
                self.faults.append(f"{what}: status {shown.returncode} and {report.returncode}, {(shown.stdout or report.stdout)[:80]!r}")
                continue
            found = heard(json.loads(shown.stdout), peering, self.head["no_med"])
            differ = [prefix for prefix in sorted({*found, *self.table}) if found.get(prefix) != self.table.get(prefix)]
            self.faults += [f"{what}: {prefix} heard {found.get(prefix)}, in the table {self.table.get(prefix)}" for prefix in differ[:5]]
            if differ:
                self.faults.append(f"{what}: {len(differ)} prefixes differ")
            self.placed(what, report.stdout.decode(), peering)

    def placed(self, what, report, peering):
        """Tests where the session is, and counts what became of its grafts."""
        ends = [(it[1], it[2]) for it in re.finditer(rf"^graft \d+ {peering} \w+ (\w+) (.*)", report, re.M)]
        self.grafts.update(end for _, end in ends)
        at = next((target for target, end in reversed(ends) if end == "accepted"), "r1")
        wanted = f"peering {peering} at {at} state Established heard {len(self.table)} "
        if wanted not in report:
            self.faults.append(f"{what}: no line {wanted}, but {re.search(rf'^peering {peering} .*', report, re.M)[0]}")


def main():
    program = sys.argv[1]
    folder = sys.argv[2] if sys.argv[2:] else os.path.join(os.path.dirname(__file__), "recordings")
    total = 0
    for file in sorted(glob.glob(f"{folder}/*.json")):
        case = Case(program, file)
        text = case.imported()
        for what, changed in variants(text) if text else ():
            case.run(what, changed)
        for fault in case.faults:
            print(f"{case.name}: {fault}")
        total += len(case.faults)
        told = ", ".join(f"{count} {end}" for end, count in sorted(case.grafts.items()))
        print(f"{case.name}: {case.head['daemon']}, {len(case.table)} routes, {case.runs} runs, grafts: {told or 'none'}; {len(case.faults)} differences")
    print(f"{total} differences")
    return 1 if total else 0


if __name__ == "__main__":
    sys.exit(main())
