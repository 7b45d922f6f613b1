#!/usr/bin/env python3
"""Runs generated laboratories whose remotes say anything, and looks at how each run ends.

    tools/hostile_remotes.py [--count N] [--first N] [--seed N] [--write FOLDER] PROGRAM

Of each laboratory a remote or two say what they like: messages that are cut, joined or flipped, octets behind a NOTIFICATION,
headers with each fault, OPENs with every capability, UPDATEs without end; before, with and behind grafts of theirs and of
others, over links that lose, repeat and reorder. The seed and a laboratory's number decide it.

PROGRAM run is done on each with 2 workers and with another number. A run is to end within 60 seconds with status 0, 3 or 7, a report
that begins as that status has it, and nothing on standard error; 3 and 7 are to come only in the few laboratories whose settles
name their rounds. Status 2 is counted apart: such a laboratory is no input.

Where a run ends settled, the report is held against what bgp_reader.py, an independent reading of RFC 4271, makes of the said
octets: each session's state and how many prefixes it heard, each graft's result, and where its session is. Where no graft meets a
change of its session, no timer runs and routes by one neighbour have one MED, the report has one answer: both runs are to print it,
with the best routes by bgp_choice.py, which reads RFC 4271's decision process anew. A laboratory for which something of this doesn't
hold is kept in the current folder as hostile.N, and the status is 1 then.

With --write each laboratory is written into a folder, as N.toml, and nothing is run.
"""
import argparse
import collections
import pathlib
import random
import re
import subprocess
import sys

import bgp_choice
import bgp_reader
from bgp_choice import Candidate
from hostile_says import FAULTS, KEEPALIVE, OPENINGS, Remote, endless, message

SECONDS = 60
HOME_AS = 65000
MOST_SAID = 4096
ROUTERS = "abcd"
FIRST_LINES = {
    0: r"result settled",
    3: r"result unsettled step \d+ rounds \d+",
    7: r"result (stream-full peering \S+ length \d+|journal-full events \d+)",
}
ANY_RESULT = r"(accepted|refused (SameRouter|NotEstablished\((OpenSent|OpenConfirm|Closed)\)|HoldTooShort\(\d+\)))"
Say = collections.namedtuple("Say", "remote octets")
Graft = collections.namedtuple("Graft", "remote target")


class Lab:
    """A laboratory: its routers, remotes and link faults, and the steps of each group."""

    def __init__(self, seed, number):
        choose = self.choose = random.Random(seed * 1_000_003 + number)
        self.routers = ROUTERS[: choose.randint(2, 4)]
        self.remotes = [Remote(place, choose) for place in range(choose.randint(1, 4))]
        self.groups = [[] for _ in range(choose.randint(3, 5))]
        self.hostile = [remote for remote in self.remotes if remote is self.remotes[0] or choose.random() < 0.3]
        self.rounds = choose.randint(1, 40) if choose.random() < 0.04 else None
        self.least = 0
        self.kinds = []
        for remote in self.remotes:
            remote.start = choose.randrange(len(self.routers))
            if remote in self.hostile:
                self.say_anything(remote)
            else:
                self.say_sound(remote, len(self.groups))
        self.add_timer()
        self.add_grafts()
        self.link_faults = self.some_link_faults()

    def say_sound(self, remote, groups):
        """Has a remote say sound messages in the first groups."""
        for group in range(groups):
            self.groups[group] += [Say(remote, remote.sound()) for _ in range(self.choose.randrange(3))]

    def say_anything(self, remote):
        """Has a remote say sound messages, then from some group on its fault, and then perhaps more."""
        choose = self.choose
        group = choose.randrange(len(self.groups))
        self.say_sound(remote, group)
        if choose.random() < 0.3:
            opening = choose.choice(OPENINGS)
            self.kinds.append(opening.__name__)
            remote.opening = opening(remote)
            if choose.random() < 0.3:
                return
        fault = endless if choose.random() < 0.01 else choose.choice(FAULTS)
        self.kinds.append(fault.__name__)
        for piece in fault(remote):
            self.groups[group].append(Say(remote, piece))
            group = min(len(self.groups) - 1, group + (choose.random() < 0.3))
        for later in range(group, len(self.groups)):
            if choose.random() < 0.4:
                octets = remote.sound() if choose.random() < 0.5 else choose.randbytes(30)
                self.groups[later].append(Say(remote, octets))

    def add_timer(self):
        """Gives the home side of the first session a hold time, now and then, and the groups the rounds in which it runs out."""
        if self.choose.random() < 0.04:
            self.remotes[0].home_hold = self.choose.randint(3, 12)
            self.least = 60
            self.rounds = None

    def add_grafts(self):
        """Grafts of none, of remotes that aren't hostile, or of all, at any places of the groups."""
        choose = self.choose
        kind = choose.random()
        moved = [] if kind < 0.15 else [remote for remote in self.remotes if remote not in self.hostile] if kind < 0.3 else self.remotes
        for steps in self.groups[0 if kind > 0.97 else 1 :]:
            for remote in moved:
                for _ in range(choose.choice((0, 0, 1, 1, 2))):
                    steps.insert(choose.randint(0, len(steps)), Graft(remote, choose.randrange(len(self.routers))))

    def some_link_faults(self):
        """Segments that are lost, repeated, held or gone astray."""
        choose = self.choose
        faults = {}
        for _ in range(choose.choice((0, 0, 2, 6))):
            way = choose.choice(("home", "remote"))
            kind = choose.choice(("lose", "repeat", "hold", "stray") if way == "home" else ("lose", "repeat", "hold"))
            faults[choose.choice(self.remotes).name, way, choose.randint(1, 12)] = (kind, choose.randint(1, 6))
        return faults

    def text(self):
        """The input."""
        lines = [f"home_as = {HOME_AS}"]
        for place, name in enumerate(self.routers):
            lines += ["", "[[router]]", f'name = "{name}"', f'id = "10.255.0.{place + 1}"', "sessions = 32"]
        for remote in self.remotes:
            lines += self.peering_lines(remote)
        for (name, way, segment), (kind, after) in self.link_faults.items():
            lines += ["", "[[fault]]", f'peering = "{name}"', f'way = "{way}"', f"segment = {segment}", f'kind = "{kind}"']
            lines += [f"after = {after}"] * (kind != "lose")
        for steps in self.groups:
            lines += self.group_lines(steps)
        return "\n".join(lines) + "\n"

    def peering_lines(self, remote):
        lines = ["", "[[peering]]", f'name = "{remote.name}"', f'at = "{self.routers[remote.start]}"', f"remote_as = {remote.as_number}"]
        lines += [f'remote_address = "{remote.address}"', f'local_address = "{remote.local}"']
        lines += [f'opening = "{remote.opening.hex()}"'] if remote.opening is not None else []
        return lines + ["as4 = true"] * remote.offers + [f"home_hold = {remote.home_hold}"] * (remote.home_hold > 0)

    def group_lines(self, steps):
        """A group of steps, and the settle behind it. What is said goes in pieces that a step can have."""
        lines = []
        for step in steps:
            begin = ["", "[[step]]", f'peering = "{step.remote.name}"']
            if isinstance(step, Graft):
                lines += [*begin, 'do = "graft"', f'to = "{self.routers[step.target]}"']
            else:
                for at in range(0, len(step.octets), MOST_SAID):
                    lines += [*begin, 'do = "raw"', f'hex = "{step.octets[at : at + MOST_SAID].hex()}"']
        lines += ["", "[[step]]", 'do = "settle"']
        lines += [f"rounds = {self.rounds}"] * (self.rounds is not None)
        return lines + [f"least = {self.least}"] * (self.least > 0)


class Expected:
    """What a settled run of a laboratory reports: each session's state and what it heard, and of each graft its line, or None
    where something that happens beside it decides."""

    def __init__(self, lab):
        self.sessions = {remote: bgp_reader.Session(remote.as_number, remote.offers) for remote in lab.remotes}
        self.has_timers = lab.remotes[0].home_hold > 0
        self.places = {remote: remote.start for remote in lab.remotes}
        self.grafts = []
        for number, steps in enumerate(lab.groups):
            self.add_group(lab, number, steps)
        self.is_sure = None not in self.grafts and not self.has_timers and lab.rounds is None and self.is_even()

    def add_group(self, lab, number, steps):
        """Has each session hear what is said in a group, and then looks at its grafts: each group begins at rest, but for the first one."""
        before = {remote: session.state for remote, session in self.sessions.items()}
        if number == 0:
            for remote, session in self.sessions.items():
                session.hear(remote.open() + message(KEEPALIVE) if remote.opening is None else remote.opening)
        for step in steps:
            if isinstance(step, Say):
                self.sessions[step.remote].hear(step.octets)
        for step in steps:
            if isinstance(step, Graft):
                self.grafts.append(self.graft_line(lab, step, before[step.remote]))

    def graft_line(self, lab, graft, before):
        """The line of a graft whose session had this state when the group began."""
        remote, target = graft
        place = self.places[remote]
        result = "accepted" if before == "Established" else f"refused NotEstablished({before})"
        if place == target:
            result = "refused SameRouter"
        elif place is None or self.has_timers or self.sessions[remote].state != before:
            self.places[remote] = None
            return None
        elif result == "accepted":
            self.places[remote] = target
        return f"{remote.name} {lab.routers[place]} {lab.routers[target]} {result}"

    def is_even(self):
        """Whether routes to one prefix by one neighbour have one MED."""
        metrics = {}
        for session in self.sessions.values():
            for prefix, route in session.announced:
                if route.path is None:
                    return False
                near = bgp_reader.neighbour(route.path, HOME_AS)
                if metrics.setdefault((prefix, near), route.med) != route.med:
                    return False
        return True

    def state(self, remote):
        """The state of a session at the end. One with a timer is closed by then, since its remote has fallen silent."""
        session = self.sessions[remote]
        if remote.home_hold and session.hold and session.state != "OpenSent":
            return "Closed"
        return session.state

    def heard(self, remote):
        return 0 if self.state(remote) == "Closed" else len(self.sessions[remote].heard)

    def tables(self, lab):
        """The best routes of each router, where the sessions are at their last places."""
        heard = {name: {} for name in lab.routers}
        for remote, session in self.sessions.items():
            for prefix, route in session.heard.items():
                if not any(HOME_AS in ases for _, ases in route.path):
                    address = tuple(map(int, remote.address.split(".")))
                    candidate = Candidate(f"peering {remote.name}", route, True, tuple(session.identifier), address)
                    heard[lab.routers[self.places[remote]]].setdefault(prefix, []).append(candidate)
        return bgp_choice.best_routes(heard, {name: (10, 255, 0, place + 1) for place, name in enumerate(lab.routers)}, HOME_AS)

    def report(self, lab):
        """The whole report of a settled run that has one answer."""
        tables = self.tables(lab)
        lines = ["result settled"]
        for name, best in tables.items():
            lines += [f"router {name}"] + [bgp_choice.best_line(prefix, best[prefix]) for prefix in sorted(best)]
        for remote in lab.remotes:
            at = lab.routers[self.places[remote]]
            told = [it for it in tables[at].values() if it.source != f"peering {remote.name}"] if self.state(remote) == "Established" else []
            lines.append(f"peering {remote.name} at {at} state {self.state(remote)} heard {self.heard(remote)} told {len(told)}")
        lines += [f"graft {number} {line}" for number, line in enumerate(self.grafts, 1)]
        return "\n".join(lines) + "\n"


def flaws_of_settled(lab, expected, lines):
    """What is wrong in the report of a settled run."""
    places = {remote.name: lab.routers[remote.start] for remote in lab.remotes}
    grafts = [line.split(" ", 2)[2] for line in lines if line.startswith("graft ")]
    if len(grafts) != len(expected.grafts):
        yield f"{len(grafts)} grafts"
    for number, (told, wanted) in enumerate(zip(grafts, expected.grafts), 1):
        name, source, target, result = told.split(" ", 3)
        if (told != wanted) if wanted else not re.fullmatch(ANY_RESULT, result):
            yield f"graft {number} {told}, not {wanted}"
        if source != places[name]:
            yield f"graft {number} from {source}, not {places[name]}"
        if result == "accepted":
            places[name] = target
    for remote in lab.remotes:
        wanted = f"peering {remote.name} at {places[remote.name]} state {expected.state(remote)} heard {expected.heard(remote)} told "
        told = [line for line in lines if line.startswith(f"peering {remote.name} ")]
        if len(told) != 1 or not told[0].startswith(wanted) or (expected.state(remote) != "Established" and not told[0].endswith(" told 0")):
            yield f"{told}, not {wanted}"


def flaws(lab, expected, status, text, said):
    """What is wrong in how a run ended."""
    lines = text.split("\n")
    if status not in FIRST_LINES or said or lines[-1]:
        return [f"status {status}, {text[-80:]!r}, {said[:200]!r}"]
    if not re.fullmatch(FIRST_LINES[status], lines[0]):
        return [f"status {status}, {lines[0]}"]
    if status != 0:
        return [] if lab.rounds is not None else [f"status {status}, {lines[0]}, with rounds to spare"]
    wrong = list(flaws_of_settled(lab, expected, lines))
    if expected.is_sure and text != expected.report(lab):
        wrong.append("the report isn't that of the one answer")
    return wrong


def run(program, text, workers):
    """How a run ends: its status, what it wrote, and what it wrote to standard error."""
    try:
        ended = subprocess.run([program, "run", "--workers", str(workers)], input=text.encode(), capture_output=True, timeout=SECONDS)
    except subprocess.TimeoutExpired:
        return None, "", f"no end in {SECONDS} seconds"
    return ended.returncode, ended.stdout.decode("utf-8", "backslashreplace"), ended.stderr.decode("utf-8", "backslashreplace")


class Counts:
    """What is counted over all laboratories."""

    def __init__(self):
        self.statuses = collections.Counter()
        self.states = collections.Counter()
        self.results = collections.Counter()
        self.kinds = collections.Counter()
        self.sure = self.same = self.unsure_same = self.wrong = 0

    def add(self, lab, expected, first, second):
        self.statuses[first[0]] += 1
        self.statuses[second[0]] += 1
        self.kinds.update(lab.kinds)
        for line in first[1].split("\n"):
            words = line.split(" ")
            if words[0] == "peering":
                self.states[words[words.index("state") + 1]] += 1
            elif words[0] == "graft":
                self.results[" ".join(words[5:])] += 1
        is_same = first[:2] == second[:2]
        self.sure += expected.is_sure
        self.same += expected.is_sure and is_same
        self.unsure_same += not expected.is_sure and is_same

    def tell(self, count):
        for name, counts in (("what is said", self.kinds), ("sessions at the end", self.states), ("grafts", self.results)):
            print(f"{name}: " + ", ".join(f"{key} {number}" for key, number in counts.most_common()))
        print(f"laboratories with one answer: {self.sure}, both runs print the same of {self.same}; others: {count - self.sure}, of {self.unsure_same}")
        statuses = ", ".join(f"status {status}: {number}" for status, number in sorted(self.statuses.items(), key=str))
        print(f"{count} laboratories, each run twice; {statuses}; {self.wrong} that ended as they are not to")


def try_lab(program, lab, counts):
    """Runs a laboratory twice, and answers what is wrong."""
    expected = Expected(lab)
    text = lab.text()
    first, second = run(program, text, 2), run(program, text, lab.choose.choice((1, 3, 4, 5, 6, 7, 8)))
    counts.add(lab, expected, first, second)
    if first[0] == 2 == second[0]:
        return []
    wrong = flaws(lab, expected, *first) + flaws(lab, expected, *second)
    if expected.is_sure and first != second:
        wrong.append("two runs differ")
    return wrong


def main():
    options = argparse.ArgumentParser(description=__doc__, formatter_class=argparse.RawDescriptionHelpFormatter)
    options.add_argument("--count", type=int, default=2000)
    options.add_argument("--first", type=int, default=0)
    options.add_argument("--seed", type=int, default=7)
    options.add_argument("--write", type=pathlib.Path)
    options.add_argument("program", nargs="?")
    given = options.parse_args()
    if not given.program and not given.write:
        options.error("no program")
    counts = Counts()
    for number in range(given.first, given.first + given.count):
        lab = Lab(given.seed, number)
        if given.write:
            (given.write / f"{number}.toml").write_text(lab.text())
            continue
        wrong = try_lab(given.program, lab, counts)
        for flaw in wrong:
            print(f"laboratory {number}: {flaw}", flush=True)
        if wrong:
            counts.wrong += 1
            pathlib.Path(f"hostile.{number}").write_text(lab.text())
    if given.write:
        print(f"{given.count} laboratories written to {given.write}")
        return 0
    counts.tell(given.count)
    return 1 if counts.wrong else 0


if __name__ == "__main__":
    sys.exit(main())
