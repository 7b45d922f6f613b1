#!/usr/bin/env python3
"""Damages journals by one change each, and asks the replay of audit_again.py, and a program's audit, what they say of them.

    damage_journals.py [--seed N] [--clocks] FILE
    damage_journals.py --run PROGRAM [--audit] [--reports] [--random] [--seed N] [--count N] [--changes N] [--show N] [LAB..]

The first writes the journal in FILE with one change, which the seed decides: an entry is dropped or doubled, or changes places with its
neighbour, or has another argument, kind, actor or clock. What was changed is said on standard error. With --clocks all clocks are set
anew, by the rows, up to the first entry that can't happen, so that it is seldom the clock alone that is wrong.

The second takes the journals that PROGRAM writes of each LAB, or of N generated laboratories (100), by 1, 2, 4 and 8 workers in turn: the
replay is to say yes to each, with all its entries, and quiet where the run settled. Then N changes are made to each (4), every other one
with --clocks, and the answers are counted: no is due to most, and yes where the change leaves a run. With --reports a journal of one worker
is to end in the world that PROGRAM run reports. With --random the journals are those of random runs (random_runs.py) of at most 10,000
entries, in place of PROGRAM's. With --audit PROGRAM audit is asked of each text, and is to say the same as the replay.
--show prints so many of the damaged journals' answers, with the entries around the change. The status is 1 where something isn't as it is
to be; such a text is kept in the current folder as journal.N.
"""
import argparse
import collections
import pathlib
import random
import subprocess
import sys

import audit_again
from audit_again import END, Auditor, audit, entries_from, journal_of, report_lines, split_text
from audit_setup import Setup
from random_runs import journal_text, laboratories, random_run

WORKERS = (1, 2, 4, 8)
CHANGES = ("dropped", "doubled", "swapped", "argument", "argument", "argument", "kind", "actor", "clock")
KINDS = (*range(1, 27), 31, 32, 33, 34, 35, 36)
ACTOR, KIND, FIRST = 1, 2, 3
MOST = 10_000


def parts_of(text):
    """The input and the entries of a journal."""
    document, at = split_text(text)
    return document, list(entries_from(text, at))


def another(choose, value, values):
    """Another number: near to a number, or one that stands elsewhere."""
    others = [value + step for step in (-2, -1, 1, 2) if value + step >= 0] + [0, 1, choose.choice(values), choose.randrange(2**32)]
    return choose.choice([other for other in others if other != value])


def damaged(entries, choose, changes):
    """The entries with one change of these; what it is, and where."""
    what, place = choose.choice(changes), choose.randrange(len(entries))
    entry, changed = list(entries[place]), list(entries)
    alike = [it for it in entries[max(0, place - 200) : place + 200] if it[KIND] == entry[KIND]]
    if what == "dropped":
        del changed[place]
    elif what == "doubled":
        changed.insert(place, entries[place])
    elif what == "swapped":
        changed[place : place + 2] = reversed(entries[place : place + 2])
    else:
        if what == "argument":
            field = FIRST + choose.choice([0, 0, 1, 1, 2])
            entry[field] = another(choose, entry[field], [it[field] for it in alike])
        elif what == "kind":
            entry[KIND] = choose.choice([kind for kind in KINDS if kind != entry[KIND]])
        elif what == "actor":
            entry[ACTOR] = another(choose, entry[ACTOR], [it[ACTOR] for it in entries[:200]]) % 2**16
        else:
            entry[0] = another(choose, entry[0], [entry[0] + 1])
        changed[place] = tuple(entry)
    return changed, what, place


def with_clocks(document, entries):
    """The entries with clocks that are right up to the first entry that can't happen, and that rise from there on."""
    auditor, made = Auditor(Setup(document)), []
    for place, (_, actor, *rest) in enumerate(entries):
        clock = auditor.next_clock(actor, *rest[:2]) if actor < len(auditor.actors) else 0
        if auditor.make(clock, actor, *rest) is not None:
            top = max(auditor.clocks) + 1
            behind = [(top + more, *entry[1:]) for more, entry in enumerate(entries[place:])]
            return sorted(made) + behind
        made.append((clock, actor, *rest))
    return sorted(made)


def change(text, choose, clocks):
    """A journal with one change; what it is, and where."""
    document, entries = parts_of(text)
    changed, what, place = damaged(entries, choose, [it for it in CHANGES if not clocks or it != "clock"])
    return journal_text(document, with_clocks(document, changed) if clocks else changed), what, place


class Comparison:
    """What replay and program say of many journals."""

    def __init__(self, words):
        self.program, self.words = words.run, words
        self.choose = random.Random(words.seed)
        self.wrong = self.entries = self.whole = 0
        self.answers = collections.Counter()

    def fail(self, name, what, text):
        """Notes what isn't as it is to be, and keeps the text."""
        pathlib.Path(f"journal.{self.wrong}").write_bytes(text)
        print(f"{name}: {what}: journal.{self.wrong}", flush=True)
        self.wrong += 1

    def ask(self, name, text):
        """The answer of the replay, which is to be that of the program; and the world behind it."""
        answer, world = audit(text)
        if self.words.audit:
            given = subprocess.run([self.program, "audit"], input=text, capture_output=True, check=False).stdout.decode().strip()
            if given != answer:
                self.fail(name, f"the replay says {answer}, the program {given}", text)
        return answer, world

    def take(self, name, lab, workers):
        """Asks of a journal of a laboratory, and of changes to it."""
        if self.words.random:
            text = journal_text(lab, random_run(lab, self.choose, MOST)[0])
            self.take_sound(name, text, ("quiet", "running"))
        else:
            text = journal_of(self.program, lab, workers)
            if not text.endswith(END):
                print(f"{name}: isn't run")
                return
            ran = subprocess.run([self.program, "run", "--workers", str(workers)], input=lab, capture_output=True, check=False)
            world = self.take_sound(name, text, ("quiet",) if ran.returncode == 0 else ("quiet", "running"))
            wanted = [line for line in ran.stdout.decode().splitlines() if not line.startswith(("result", "trace"))]
            if world and self.words.reports and workers == 1 and wanted != list(report_lines(world)):
                self.fail(name, "the report is another one", text)
        for number in range(self.words.changes if parts_of(text)[1] else 0):
            self.take_changed(name, text, number % 2 == 1)

    def take_sound(self, name, text, ends):
        """Asks of a journal to which the answer is yes; the world behind it."""
        count = len(parts_of(text)[1])
        answer, world = self.ask(name, text)
        self.whole, self.entries = self.whole + 1, self.entries + count
        if answer not in [f"audit yes events {count} {end}" for end in ends]:
            self.fail(name, f"{count} entries, {' or '.join(ends)}: {answer}", text)
        return world

    def take_changed(self, name, text, clocks):
        """Asks of a journal with one change."""
        changed, what, place = change(text, self.choose, clocks)
        answer, _ = self.ask(name, changed)
        words = answer.split()
        reason = words[-1] if words[1] == "no" else "yes"
        self.answers[what, reason] += 1
        if sum(self.answers.values()) <= self.words.show:
            entries, before = parts_of(changed)[1], parts_of(text)[1]
            at = int(words[3]) if words[1] == "no" else place
            print(f"{name}: {what} {place} {'with clocks ' if clocks else ''}{before[place]}: {answer}")
            for number in range(max(0, at - 2), min(len(entries), at + 2)):
                print(f"    {number}: {entries[number]}")

    def tell(self):
        """Sums up."""
        print(f"{self.whole} journals with {self.entries} entries; {sum(self.answers.values())} changes; {self.wrong} not as they are to be")
        for what in dict.fromkeys(CHANGES):
            counts = {reason: count for (change_made, reason), count in sorted(self.answers.items()) if change_made == what}
            print(f"  {what}: " + ", ".join(f"{reason} {count}" for reason, count in counts.items()))


def compare(words):
    comparison = Comparison(words)
    if words.labs:
        labs = ((f"{name} by {workers}", pathlib.Path(name).read_bytes(), workers) for name in words.labs for workers in WORKERS)
    else:
        # Laboratories of each kind are run by each number of workers.
        named = ((number, lab, WORKERS[(number + number // 4) % 4]) for number, lab in enumerate(laboratories(words.seed, words.count)))
        labs = ((f"laboratory {number} by {workers}", lab, workers) for number, lab, workers in named)
    for number, (name, lab, workers) in enumerate(labs):
        comparison.take(name, lab, workers)
        if sys.stderr.isatty():
            print(f"\r{number + 1}", end="", file=sys.stderr, flush=True)
    comparison.tell()
    return comparison.wrong == 0


def main():
    parser = argparse.ArgumentParser(description=__doc__, formatter_class=argparse.RawDescriptionHelpFormatter)
    parser.add_argument("--seed", type=int, default=1)
    parser.add_argument("--clocks", action="store_true")
    parser.add_argument("--run", metavar="PROGRAM")
    parser.add_argument("--audit", action="store_true")
    parser.add_argument("--reports", action="store_true")
    parser.add_argument("--random", action="store_true")
    parser.add_argument("--count", type=int, default=100)
    parser.add_argument("--changes", type=int, default=4)
    parser.add_argument("--show", type=int, default=0)
    parser.add_argument("labs", nargs="*", metavar="FILE or LAB")
    words = parser.parse_args()
    if words.run:
        sys.exit(0 if compare(words) else 1)
    if len(words.labs) != 1:
        parser.error("one FILE is wanted")
    text, what, place = change(audit_again.read_text(words.labs[0]), random.Random(words.seed), words.clocks)
    print(f"{what}, entry {place}", file=sys.stderr)
    sys.stdout.buffer.write(text)


if __name__ == "__main__":
    main()
