#!/usr/bin/env python3
"""Writes journals of runs that no program made: event after event is chosen at random among those that the rows of docs/EVENTS.md allow.

    random_runs.py [--seed N] [--most N] LAB
    random_runs.py [--seed N] [--most N] [--count N] --audit PROGRAM

A run sends any slice that may be sent, delivers any segment of a link to any router, puts fewer prefixes than it could, and lets actors
wait for long: much that graftlab never does, and all of it a run. LAB is an input; its journal, with the clocks of the rows, is written
to standard output, ready for audit_again.py or graftlab audit. It has at most N entries (100,000), and ends earlier where nothing is left.

With --audit N laboratories (100), made by varied_labs.py, one_answer.py and hostile_remotes.py, are run in this way, and PROGRAM audit is
asked of each journal. A line for each of which its answer isn't that of the replay; then how many there were, how many ended quiet in the
last group, and how many entries they had. The status is 1 where an answer differs.
"""
import argparse
import random
import subprocess
import sys

import hostile_remotes
import one_answer
import varied_labs
from audit_again import END, GO, HEAD, Auditor
from audit_session import CLOSED, ESTABLISHED, FLIGHT, OPEN_CONFIRM, PAYLOAD
from audit_setup import SAYS, Setup
from audit_world import ASKED, ANSWERED, BACK, DONE, LIVE, MOVED, POINT_AT, SEGMENT, TOLD

MESH_ROWS = {TOLD: (8,), MOVED: (13, 14), BACK: (15,), DONE: (16,), ASKED: (35,), ANSWERED: (36,)}
# How many segments of an endpoint are on their way at most where it hurries.
MANY = 6
OUTWARD_ROWS = {SEGMENT: 19, POINT_AT: 23}


class Chooser:
    """Chooses events of a world, most of which can be made."""

    def __init__(self, auditor, choose):
        self.auditor, self.choose, self.world = auditor, choose, auditor.world
        self.routers, self.peerings = len(self.world.routers), len(self.world.fars)
        # Some runs lose and repeat much, some little; in some timers run, and segments are sent that say nothing new.
        self.harm, self.round, self.hurry, self.idle = choose.choice([0, 0.02, 0.2]), 0, choose.choice([0, 0, 0.02]), choose.choice([0, 0, 0.01])

    def event(self):
        """An actor, a kind and arguments; None where the chosen actor has nothing to do."""
        actor = self.choose.randrange(self.routers + self.peerings + 1)
        if actor < self.routers:
            made = self.of_router(self.world.routers[actor])
        elif actor < self.routers + self.peerings:
            made = self.of_far(self.world.fars[actor - self.routers])
        else:
            made = self.of_operator()
        return made and (actor, *made, *[0] * (4 - len(made)))

    def one_of(self, events):
        return self.choose.choice(events) if events else None

    def wants_to_send(self, end, stream, other, on_way):
        """Whether an endpoint sends something: it has, or had, something to say, or the other end doesn't know what arrived. It seldom does
        where many of its segments are on their way."""
        if end.emitted < min(stream, end.acked + FLIGHT) or other.acked < end.received:
            return on_way < MANY or self.choose.random() < 0.01
        return on_way < MANY and self.choose.random() < (0.1 if end.acked < stream else self.idle)

    def slice(self, end, stream):
        """A slice of a stream that an endpoint may send."""
        limit = min(stream, end.acked + FLIGHT)
        offset = self.choose.choice([end.acked, end.emitted, end.emitted, self.choose.randint(end.acked, end.emitted)])
        length = min(PAYLOAD, limit - offset)
        if length and self.choose.random() < 0.3:
            length = self.choose.randint(1, length)
        return (offset, length) if length or offset == end.emitted else (end.emitted, 0)

    def of_router(self, router):
        choices = [self.table_event, self.table_event, self.mesh_event, self.mesh_event, self.session_event, self.session_event, self.graft_event]
        return self.choose.choice(choices)(router)

    def table_event(self, router):
        """Decide or Tell."""
        ready = [(q, due - router.dirty) for q, due in enumerate(router.due_in)]
        tells = [(7, q, *self.choose.choice(sorted(due))) for q, due in ready if due]
        decides = [(6, *self.choose.choice(sorted(router.dirty)))] if router.dirty else []
        return self.one_of(tells + decides)

    def mesh_event(self, router):
        """A row that takes an item from a router or the operator."""
        heads = [(q, channel[0][1]) for q, channel in enumerate(self.world.mesh_to[router.number]) if channel]
        events = [(kind, q) for q, what in heads for kind in MESH_ROWS[what]]
        orders = self.world.orders[router.number]
        return self.one_of(events + ([(9, orders[0][1])] if orders else []))

    def session_event(self, router):
        """A row of a session, or a segment that strays."""
        p = self.choose.randrange(self.peerings) if self.peerings else 0
        if not self.peerings:
            return None
        place, coming = router.places[p], self.world.inward[p][router.number]
        if place.kind != LIVE:
            return (4, p) if coming else None
        session = place.session
        events = [(3, p)] * 2 if coming else []
        if session.state != CLOSED and session.waits(self.world.fars[p].said):
            events += [(5, p)] * 2
        far = self.world.fars[p]
        if self.wants_to_send(session.end, session.put, far.end, len(far.remoteward) + len(self.world.outward[router.number][p])):
            events.append((2, p, *self.slice(session.end, session.put)))
        if session.state == ESTABLISHED and router.due_out[p] - router.dirty:
            events.append((1, p, self.number_to_put(router, session)))
        if session.state in (OPEN_CONFIRM, ESTABLISHED) and session.hold and self.choose.random() < self.hurry:
            self.round += 1
            events.append((31, p, self.round))
        return self.one_of(events)

    def number_to_put(self, router, session):
        """How many prefixes a Put may tell."""
        pending = router.pending(session)
        if not pending.heap:
            return 0
        count = len(pending.groups[pending.heap[0][1]])
        return self.choose.choice([count, count, min(count, 3), self.choose.randint(1, count)])

    def graft_event(self, router):
        """A row of a graft that is at work here."""
        events = []
        for place in router.places:
            if place.graft is not None:
                events.append((12, place.graft))
            elif place.errand is not None:
                k, to_ask = place.errand.graft, place.errand.to_ask
                events += [(10, k), (11, k), (33, k)] + [(34, k, q) for q in to_ask[:1]]
        return self.one_of(events)

    def of_far(self, far):
        """A row of a far side."""
        p, harmful = far.peering.number, self.choose.random() < self.harm
        heads = [(r, channels[p][0][1]) for r, channels in enumerate(self.world.outward) if channels[p]]
        events = [(OUTWARD_ROWS[what], r) for r, what in heads]
        events += [(17, self.world.says[p][0][1])] if self.world.says[p] else []
        if far.homeward:
            index = self.choose.randrange(len(far.homeward))
            router = self.choose.randrange(self.routers) if harmful else far.pointer
            events += [(22, 0, index)] if harmful else [(20, index, int(self.choose.random() < self.harm), router)] * 2
        if far.remoteward:
            index = self.choose.randrange(len(far.remoteward))
            events += [(22, 1, index)] if harmful else [(21, index, int(self.choose.random() < self.harm))] * 2
        held = [router.places[p].session for router in self.world.routers if router.places[p].is_held()]
        if held and self.wants_to_send(far.end, len(far.said), held[0].end, len(far.homeward) + sum(map(len, self.world.inward[p]))):
            events.append((18, *self.slice(far.end, len(far.said))))
        if far.peering.beat and self.choose.random() < self.hurry:
            events.append((32, far.last_beat + far.peering.beat * self.choose.randint(1, 2)))
        return self.one_of(events)

    def of_operator(self):
        """A row of the operator."""
        operator, setup = self.world.operator, self.world.setup
        events = [(25, r) for r, reports in enumerate(self.world.reports) if reports]
        for number in setup.groups[operator.group]:
            if setup.steps[number].do in SAYS + ("graft",):
                events.append((24, number))
            else:
                events += [(24, number, k) for k in operator.log if operator.log[k].graft.step == number]
        return self.one_of(events + [(GO,)])


def is_over(world):
    """Whether nothing is left to do in the last group."""
    return not world.on_way and world.operator.group + 1 == len(world.setup.groups) and world.is_quiet()


def random_run(document, choose, most):
    """The journal of a random run as entries, and the world behind it. After some time its links are sound, and nothing idle is sent."""
    auditor = Auditor(Setup(document))
    chooser, entries, tried = Chooser(auditor, choose), [], 0
    calm = choose.choice([1_000, 10_000])
    while len(entries) < most and (tried % 100 or not is_over(auditor.world)):
        tried += 1
        if len(entries) == calm:
            chooser.harm = chooser.idle = 0
        event = chooser.event()
        clock = event and auditor.next_clock(*event[:3])
        if event and auditor.make(clock, *event) is None:
            entries.append((clock, *event))
    return sorted(entries), auditor.world


def journal_text(document, entries):
    """An input with its journal."""
    lines = "".join(" ".join(map(str, entry)) + "\n" for entry in entries)
    return document + b"\n" + HEAD + lines.encode() + END


def laboratories(seed, count):
    """Generated laboratories, as texts."""
    for number in range(count):
        if number % 4 == 0:
            yield one_answer.even(random.Random(seed * 1_000_003 + number)).encode()
        elif number % 4 == 1:
            yield hostile_remotes.Lab(seed, number).text().encode()
        else:
            yield varied_labs.Varied(seed * 1_000_003 + number).text().encode()


def ask(program, text):
    """What a program's audit of a journal says."""
    return subprocess.run([program, "audit"], input=text, capture_output=True, check=False).stdout.decode().strip()


def compare(program, seed, count, most):
    """Asks a program of random runs of generated laboratories; whether all its answers are those of the replay."""
    differences = quiet = sum_of_entries = 0
    for number, document in enumerate(laboratories(seed, count)):
        entries, world = random_run(document, random.Random(seed * 7_919 + number), most)
        wanted = f"audit yes events {len(entries)} {'quiet' if world.is_quiet() else 'running'}"
        answer = ask(program, journal_text(document, entries))
        sum_of_entries += len(entries)
        quiet += is_over(world)
        if answer != wanted:
            differences += 1
            print(f"laboratory {number}: the replay says {wanted}, the program {answer}")
    print(f"{count} runs, {quiet} quiet in the last group, {sum_of_entries} entries, {differences} differences")
    return differences == 0


def main():
    parser = argparse.ArgumentParser(description=__doc__, formatter_class=argparse.RawDescriptionHelpFormatter)
    parser.add_argument("--seed", type=int, default=1)
    parser.add_argument("--most", type=int, default=100_000)
    parser.add_argument("--count", type=int, default=100)
    parser.add_argument("--audit", metavar="PROGRAM")
    parser.add_argument("lab", nargs="?")
    words = parser.parse_args()
    if words.audit:
        sys.exit(0 if compare(words.audit, words.seed, words.count, words.most) else 1)
    if not words.lab:
        parser.error("a LAB or --audit is missing")
    with open(words.lab, "rb") as file:
        document = file.read()
    entries, _ = random_run(document, random.Random(words.seed), words.most)
    sys.stdout.buffer.write(journal_text(document, entries))


if __name__ == "__main__":
    main()
