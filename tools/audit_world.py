"""The world of a laboratory and its events, replayed: routers, far sides, the operator, and the channels between them, by the rows of
docs/EVENTS.md. Each row is a method that takes the three arguments of an entry and changes the world; where its condition fails it
raises Fails and changes nothing.
"""
import collections
import heapq
import itertools

from audit_routes import LONGEST, OWN, PREFERENCE, ROUTERS, Attributes, Route, candidate, choice, exported, imported, update_octets
from audit_session import CLOSED, ESTABLISHED, OPEN_CONFIRM, End, Fails, Session, needs
from audit_setup import SAYS
from bgp_reader import HEADER, MARKER

MOST_PUT = 1044480
MOST_BEATS = 27594
SHORT_HOLD = 30
VACANT, LIVE, FROZEN, SHADOW = "vacant", "live", "frozen", "shadow"
LEAVING, OWING, ASKING = "leaving", "owing", "asking"
SEGMENT, POINT_AT = "segment", "point at"
TOLD, MOVED, BACK, ASKED, ANSWERED, DONE = "told", "moved", "back", "asked", "answered", "done"
NETWORK = Route(Attributes(0, (), 0, None, False, None, ()), PREFERENCE)


class Errand:
    """What a live session's place still has to do for a graft."""

    __slots__ = ("what", "graft", "other", "to_ask")

    def __init__(self, what, graft, other, to_ask=()):
        # The other router is the target of a session that is to leave, or the source of one that landed.
        self.what, self.graft, self.other, self.to_ask = what, graft, other, list(to_ask)


class Place:
    """A router's place for a peering."""

    __slots__ = ("kind", "session", "errand", "graft")

    def __init__(self):
        self.become(VACANT)

    def become(self, kind, session=None, errand=None, graft=None):
        self.kind, self.session, self.errand, self.graft = kind, session, errand, graft

    def is_held(self):
        return self.session is not None

    def has_errand(self, what, graft):
        """Whether a live session has this errand for this graft."""
        return self.kind == LIVE and self.errand is not None and self.errand.what == what and self.errand.graft == graft


class Pending:
    """What is to be told on a session: the prefixes by what is told of them, or that they are withdrawn, each list rising."""

    def __init__(self, values):
        self.groups = {}
        for prefix, value in values:
            self.groups.setdefault(value, collections.deque()).append(prefix)
        self.heap = [(group[0], value) for value, group in self.groups.items()]
        heapq.heapify(self.heap)

    def drop(self, count):
        """Takes the first so many prefixes out that are told the same as the first one."""
        value = self.heap[0][1]
        group = self.groups[value]
        for _ in range(count):
            group.popleft()
        if group:
            heapq.heapreplace(self.heap, (group[0], value))
        else:
            heapq.heappop(self.heap)


class RouterPart:
    """A router, with the rows of its events."""

    def __init__(self, world, number):
        setup = world.setup
        self.world, self.number, self.own = world, number, setup.routers[number]
        self.others = [other for other in range(len(setup.routers)) if other != number]
        self.places = [Place() for _ in setup.peerings]
        self.entries, self.of_peering = {}, [set() for _ in setup.peerings]
        self.best, self.dirty = {}, set()
        self.due_in = [set() for _ in setup.routers]
        self.due_out = [set() for _ in setup.peerings]
        # What is pending on each session counts as long as nothing changed that it depends on.
        self.changes, self.pendings = 0, [(-1, None)] * len(setup.peerings)
        for prefix in self.own.networks:
            self.enter(OWN, prefix, candidate(OWN, NETWORK, setup.home_as, False, 0, 0, 0))

    # ---- tables

    def enter(self, source, prefix, entry):
        """Sets what a source gives for a prefix, or that it gives nothing; where that is something else, the prefix is dirty."""
        entries = self.entries.setdefault(prefix, {})
        if entries.get(source) == entry:
            return
        if entry is None:
            del entries[source]
        else:
            entries[source] = entry
        if 0 <= source < ROUTERS:
            (self.of_peering[source].discard if entry is None else self.of_peering[source].add)(prefix)
        self.dirty.add(prefix)
        self.changes += 1

    def enter_heard(self, session, prefix):
        """Sets the entry of a prefix by what a session hears of it and the import policy here."""
        peering, attributes, route = session.peering, session.heard.get(prefix), None
        home_as = self.world.setup.home_as
        if attributes is not None:
            route = imported(self.own.policies.get(peering.import_name), prefix, attributes, peering.remote_as, home_as)
        ends = session.identifier, peering.remote_address
        self.enter(peering.number, prefix, route and candidate(peering.number, route, home_as, True, 0, *ends))

    def forget(self, p):
        """Drops all entries of a peering."""
        for prefix in list(self.of_peering[p]):
            self.enter(p, prefix, None)

    def owe(self, p, prefixes):
        """Makes prefixes due on a peering."""
        self.due_out[p].update(prefixes)
        self.changes += 1

    def owe_again(self, session):
        """Makes due on a session what was told on it and what is best here."""
        self.owe(session.peering.number, session.told)
        self.owe(session.peering.number, self.best)

    def owe_nothing(self, p):
        self.due_out[p].clear()
        self.changes += 1

    def told_of(self, session, prefix, known):
        """What is to be told of a prefix on a session, or none; `known` has what was found out of the same attributes already."""
        best, peering = self.best.get(prefix), session.peering
        if best is None or best[0] == peering.number:
            return None
        attributes = best[1].attributes
        policy = self.own.policies.get(peering.export_name)
        # Without rules, prefixes of one length that share their attributes are told alike.
        key = None if policy else (id(attributes), prefix[1])
        if key not in known or key is None:
            known[key] = exported(policy, prefix, attributes, peering, self.world.setup.home_as)
        return known[key]

    def pending(self, session):
        """What is to be told on a session of what is due there and not dirty."""
        p = session.peering.number
        if self.pendings[p][0] != self.changes:
            known, told = {}, session.told
            values = ((prefix, self.told_of(session, prefix, known)) for prefix in sorted(self.due_out[p] - self.dirty))
            self.pendings[p] = self.changes, Pending((prefix, value) for prefix, value in values if value != told.get(prefix))
        return self.pendings[p][1]

    # ---- places

    def live(self, p):
        """The live session of a peering."""
        needs(p < len(self.places) and self.places[p].kind == LIVE)
        return self.places[p].session

    def place_of(self, test):
        """The place for which a test holds, with its peering."""
        for p, place in enumerate(self.places):
            if test(place):
                return p, place
        raise Fails

    def refusal(self, place):
        """Why an order that is stored is refused here, or none."""
        session = place.session
        if place.errand.other == self.number:
            return "SameRouter"
        if session.state != ESTABLISHED:
            return f"NotEstablished({session.state})"
        return f"HoldTooShort({session.hold})" if 0 < session.hold < SHORT_HOLD else None

    def turned_back(self, peering):
        """Why a session can't land here, or none."""
        if sum(place.kind != VACANT for place in self.places) >= self.own.room:
            return f"RouterFull({self.own.room})"
        missing = [name for name in (peering.import_name, peering.export_name) if name is not None and name not in self.own.policies]
        return f"PolicyMissing({missing[0]})" if missing else None

    def report(self, graft, outcome):
        self.world.send(self.world.reports[self.number], graft, outcome)

    def next_from(self, q, kind):
        """The next item from a router, which is of this kind."""
        channels = self.world.mesh_to[self.number]
        needs(q < len(channels))
        return self.world.first(channels[q], kind)

    def take_from(self, q):
        """Takes the next item from a router."""
        return self.world.take(self.world.mesh_to[self.number][q])

    def send_to(self, q, *item):
        self.world.send(self.world.mesh_to[q][self.number], *item)

    # ---- rows 1 to 5 and 31: sessions

    def put(self, p, n, _):
        session = self.live(p)
        needs(session.state == ESTABLISHED)
        pending = self.pending(session)
        if n == 0:
            ripe = self.due_out[p] - self.dirty
            needs(not pending.heap and ripe)
            self.due_out[p] -= ripe
            return
        needs(pending.heap)
        value = pending.heap[0][1]
        group = pending.groups[value]
        needs(n <= len(group))
        prefixes = list(itertools.islice(group, n))
        octets = update_octets(value, prefixes, session.wide)
        needs(octets <= LONGEST and session.put + octets <= MOST_PUT)
        session.put += octets
        pending.drop(n)
        self.due_out[p].difference_update(prefixes)
        if value is None:
            for prefix in prefixes:
                del session.told[prefix]
        else:
            session.told.update(dict.fromkeys(prefixes, value))

    def emit(self, p, offset, length):
        session = self.live(p)
        end = session.end
        needs(end.may_emit(session.put, offset, length))
        end.emitted = max(end.emitted, offset + length)
        self.world.send(self.world.outward[self.number][p], SEGMENT, (offset, length, end.received))

    def arrive(self, p, _, __):
        session = self.live(p)
        _, segment = self.world.take(self.world.inward[p][self.number])
        session.end.arrive(segment)

    def stray(self, p, _, __):
        needs(p < len(self.places) and self.places[p].kind != LIVE)
        self.world.take(self.world.inward[p][self.number])

    def got(self, p, _, __):
        session = self.live(p)
        before = session.state
        changed = session.get(self.world.fars[p].said)
        if session.state == CLOSED:
            self.closed(p)
        else:
            for prefix in changed:
                self.enter_heard(session, prefix)
        if session.state == ESTABLISHED and before != ESTABLISHED:
            self.owe(p, self.best)

    def closed(self, p):
        """What follows where a session ends."""
        self.forget(p)
        self.owe_nothing(p)

    def tick(self, p, number, _):
        session = self.live(p)
        needs(session.state in (OPEN_CONFIRM, ESTABLISHED) and session.hold > 0)
        needs(number > session.last_tick and session.put + HEADER <= MOST_PUT)
        session.tick(number)
        if session.state == CLOSED:
            self.closed(p)

    # ---- rows 6 to 8: tables

    def decide(self, address, length, _):
        prefix = address, length
        needs(prefix in self.dirty)
        self.dirty.discard(prefix)
        entries = self.entries[prefix]
        best = choice([entries[source] for source in sorted(entries)]) if entries else None
        self.changes += 1
        if not self.set_best(prefix, best and (best.source, best.route)):
            return
        for q in self.others:
            self.due_in[q].add(prefix)
        for p, place in enumerate(self.places):
            if place.is_held() and place.session.state == ESTABLISHED:
                self.due_out[p].add(prefix)

    def set_best(self, prefix, best):
        """Sets the best route to a prefix, or that there is none; tells whether that is another than before."""
        if self.best.get(prefix) == best:
            return False
        if best is None:
            del self.best[prefix]
        else:
            self.best[prefix] = best
        return True

    def tell(self, q, address, length):
        prefix = address, length
        needs(q < len(self.due_in) and prefix in self.due_in[q] and prefix not in self.dirty)
        self.due_in[q].discard(prefix)
        best = self.best.get(prefix)
        route = best[1] if best and best[0] < ROUTERS else None
        self.send_to(q, TOLD, prefix, route)

    def hear(self, q, _, __):
        _, _, prefix, route = self.next_from(q, TOLD)
        setup = self.world.setup
        identifier = setup.routers[q].identifier
        ends = setup.cost(self.number, q), identifier, identifier
        self.enter(ROUTERS + q, prefix, route and candidate(ROUTERS + q, route, setup.home_as, False, *ends))
        self.take_from(q)

    # ---- rows 9 to 16 and 33 to 36: grafts

    def admit(self, k, _, __):
        orders = self.world.orders[self.number]
        _, _, p, target = self.world.first(orders, k)
        place = self.places[p]
        needs(place.kind == LIVE and place.errand is None)
        place.errand = Errand(LEAVING, k, target)
        self.world.take(orders)

    def refuse(self, k, _, __):
        _, place = self.place_of(lambda it: it.has_errand(LEAVING, k) and self.refusal(it))
        self.report(k, f"refused {self.refusal(place)}")
        place.errand = None

    def freeze(self, k, _, __):
        _, place = self.place_of(lambda it: it.has_errand(LEAVING, k) and not self.refusal(it))
        place.become(FROZEN, place.session, place.errand, k)

    def leave(self, k, _, __):
        p, place = self.place_of(lambda it: it.kind == FROZEN and it.graft == k)
        self.send_to(place.errand.other, MOVED, k, place.session)
        self.owe_nothing(p)
        place.become(SHADOW, graft=k)

    def moved_from(self, q):
        """The graft and the session that come from a router, its place, and why it can't land there, if it can't."""
        _, _, k, session = self.next_from(q, MOVED)
        place = self.places[session.peering.number]
        needs(place.kind == VACANT)
        return k, session, place, self.turned_back(session.peering)

    def land(self, q, _, __):
        k, session, place, refusal = self.moved_from(q)
        needs(refusal is None)
        p = session.peering.number
        place.become(LIVE, session, Errand(OWING, k, q, [other for other in self.others if other != q]))
        for prefix in session.heard:
            self.enter_heard(session, prefix)
        self.owe_again(session)
        self.world.send(self.world.outward[self.number][p], POINT_AT, k)
        self.take_from(q)

    def turn_back(self, q, _, __):
        k, session, _, refusal = self.moved_from(q)
        needs(refusal is not None)
        self.send_to(q, BACK, k, session, refusal)
        self.take_from(q)

    def shadow(self, p, k):
        """The place of a peering, which has a shadow for this graft."""
        needs(self.places[p].kind == SHADOW and self.places[p].graft == k)
        return self.places[p]

    def give_back(self, q, _, __):
        _, _, k, session, refusal = self.next_from(q, BACK)
        self.shadow(session.peering.number, k).become(LIVE, session)
        self.owe_again(session)
        self.report(k, f"refused {refusal}")
        self.take_from(q)

    def clear(self, q, _, __):
        _, _, k, p = self.next_from(q, DONE)
        self.shadow(p, k).become(VACANT)
        self.forget(p)
        self.report(k, "accepted")
        self.take_from(q)

    def confirm(self, k, _, __):
        p, place = self.place_of(lambda it: it.has_errand(OWING, k) and not it.errand.to_ask)
        needs(not self.dirty and not any(self.due_in))
        self.send_to(place.errand.other, DONE, k, p)
        place.errand = None

    def ask(self, k, q, _):
        p, place = self.place_of(lambda it: it.has_errand(OWING, k) and it.errand.to_ask[:1] == [q])
        needs(not self.dirty and not self.due_in[q])
        place.errand.what = ASKING
        self.send_to(q, ASKED, k, p)

    def answer(self, q, _, __):
        _, _, k, p = self.next_from(q, ASKED)
        self.send_to(q, ANSWERED, k, p)
        self.take_from(q)

    def collect(self, q, _, __):
        _, _, k, p = self.next_from(q, ANSWERED)
        place = self.places[p]
        if place.has_errand(ASKING, k) and place.errand.to_ask[0] == q:
            place.errand.what = OWING
            place.errand.to_ask.pop(0)
        self.take_from(q)

    def is_at_rest(self):
        """Whether nothing is left to do here; streams aside."""
        if self.dirty or any(self.due_in) or any(self.due_out):
            return False
        return all(place.kind == VACANT or (place.kind == LIVE and place.errand is None) for place in self.places)


class FarPart:
    """A far side, with the rows of its events: a remote's endpoint and the links to and from home."""

    def __init__(self, world, peering):
        self.world, self.peering = world, peering
        self.end, self.said = End(), bytearray(peering.opening)
        self.homeward, self.remoteward = [], []
        self.pointer, self.followed = peering.start, 0
        self.beats = self.last_beat = 0

    def say(self, number, _, __):
        channel = self.world.says[self.peering.number]
        self.world.first(channel, number)
        self.said += self.world.setup.steps[number].octets
        self.world.take(channel)

    def beat(self, number, _, __):
        interval = self.peering.beat
        needs(interval > 0 and number % interval == 0 and number > self.last_beat and self.beats < MOST_BEATS)
        self.beats, self.last_beat = self.beats + 1, number
        self.said += MARKER + b"\0\x13\x04"

    def emit(self, offset, length, _):
        needs(self.end.may_emit(len(self.said), offset, length))
        self.end.emitted = max(self.end.emitted, offset + length)
        self.homeward.append((offset, length, self.end.received))

    def take_from(self, r, kind):
        """Takes the next item from a router, which is of this kind."""
        needs(r < len(self.world.routers))
        channel = self.world.outward[r][self.peering.number]
        self.world.first(channel, kind)
        return self.world.take(channel)

    def take(self, r, _, __):
        _, _, segment = self.take_from(r, SEGMENT)
        self.remoteward.append(segment)

    def point(self, r, _, __):
        _, _, k = self.take_from(r, POINT_AT)
        if k > self.followed:
            self.pointer, self.followed = r, k

    def pick(self, link, index, keep):
        """The segment at a place of a link, taken out unless it is kept."""
        needs(index < len(link))
        return link[index] if keep else link.pop(index)

    def deliver_home(self, index, keep, r):
        needs(r < len(self.world.routers))
        self.world.send(self.world.inward[self.peering.number][r], self.pick(self.homeward, index, keep))

    def reach(self, index, keep, _):
        self.end.arrive(self.pick(self.remoteward, index, keep))

    def lose(self, way, index, _):
        self.pick(self.remoteward if way else self.homeward, index, False)

    def is_at_rest(self):
        return not self.homeward and not self.remoteward and self.end.acked == len(self.said)


class Log:
    """What the operator knows of a graft."""

    __slots__ = ("graft", "target", "source", "outcome")

    def __init__(self, graft, target, source=None, outcome=None):
        self.graft, self.target, self.source, self.outcome = graft, target, source, outcome


class OperatorPart:
    """The operator, with the rows of its events."""

    def __init__(self, world):
        setup = world.setup
        self.world, self.group, self.steps = world, -1, set()
        self.placement = [peering.start for peering in setup.peerings]
        # The grafts that were made, by number, and of each peering those without an outcome; what is still to be said, by peering.
        self.log = {}
        self.open = [collections.deque() for _ in setup.peerings]
        self.unsaid = [collections.deque() for _ in setup.peerings]
        self.by_step = collections.defaultdict(list)
        for graft in setup.grafts.values():
            self.by_step[graft.step].append(graft)
        self.begin_group()

    def begin_group(self):
        """Begins the next group: an evacuate step gives its grafts now."""
        self.group += 1
        setup = self.world.setup
        self.steps = set(setup.groups[self.group])
        for number in setup.groups[self.group]:
            step = setup.steps[number]
            if step.do in SAYS:
                self.unsaid[step.peering].append(number)
            elif step.do == "graft":
                self.make(self.by_step[number][0], step.target)
            else:
                self.empty(step.target, self.by_step[number])

    def make(self, graft, target):
        self.log[graft.number] = Log(graft, target)
        self.open[graft.peering].append(graft.number)

    def empty(self, router, grafts):
        """Gives each session that belongs at a router to the one with the fewest among those with room, the first of several."""
        rooms = [it.room for it in self.world.setup.routers]
        loads = [self.placement.count(number) for number in range(len(rooms))]
        for graft in grafts:
            if self.placement[graft.peering] != router:
                continue
            free = [number for number in range(len(rooms)) if number != router and loads[number] < rooms[number]]
            if free:
                target = min(free, key=lambda number: loads[number])
                loads[target] += 1
                self.make(graft, target)
            else:
                self.log[graft.number] = Log(graft, router, router, "refused NoTarget")

    def order(self, number, made_by_evacuation, _):
        setup = self.world.setup
        needs(number in self.steps)
        step = setup.steps[number]
        if step.do in SAYS:
            waiting = self.unsaid[step.peering]
            needs(made_by_evacuation == 0 and waiting and waiting[0] == number)
            waiting.popleft()
            self.world.send(self.world.says[step.peering], number)
            return
        needs((made_by_evacuation != 0) == (step.do == "evacuate"))
        k = made_by_evacuation or self.by_step[number][0].number
        entry = self.log.get(k)
        needs(entry is not None and entry.graft.step == number and entry.source is None)
        p = entry.graft.peering
        needs(self.open[p] and self.open[p][0] == k)
        entry.source = self.placement[p]
        self.world.send(self.world.orders[entry.source], k, p, entry.target)

    def note(self, r, _, __):
        needs(r < len(self.world.routers) and self.world.reports[r])
        _, k, outcome = self.world.take(self.world.reports[r])
        entry = self.log[k]
        entry.outcome = outcome
        self.open[entry.graft.peering].popleft()
        if outcome == "accepted":
            self.placement[entry.graft.peering] = entry.target

    def go(self, _, __, ___):
        needs(self.group + 1 < len(self.world.setup.groups) and self.world.is_quiet())
        self.begin_group()

    def is_at_rest(self):
        return not any(self.unsaid) and not any(self.open)


class World:
    """The parts of all actors, and what is on its way between them; each item stands behind the stamp of the entry that sent it."""

    def __init__(self, setup):
        self.setup, self.now, self.on_way = setup, 0, 0
        routers, peerings = len(setup.routers), len(setup.peerings)
        # The channels to each router from each other; from router to far side, and back; to and from the operator; to each far side.
        self.mesh_to = [[collections.deque() for _ in range(routers)] for _ in range(routers)]
        self.outward = [[collections.deque() for _ in range(peerings)] for _ in range(routers)]
        self.inward = [[collections.deque() for _ in range(routers)] for _ in range(peerings)]
        self.orders = [collections.deque() for _ in range(routers)]
        self.reports = [collections.deque() for _ in range(routers)]
        self.says = [collections.deque() for _ in range(peerings)]
        self.routers = [RouterPart(self, number) for number in range(routers)]
        self.fars = [FarPart(self, peering) for peering in setup.peerings]
        self.operator = OperatorPart(self)
        for peering in setup.peerings:
            self.routers[peering.start].places[peering.number].become(LIVE, Session(peering))

    def send(self, channel, *item):
        channel.append((self.now, *item))
        self.on_way += 1

    @staticmethod
    def first(channel, what):
        """The next item of a channel, which is of this kind, or has this number."""
        needs(channel and channel[0][1] == what)
        return channel[0]

    def take(self, channel):
        """Takes the next item of a channel."""
        needs(channel)
        self.on_way -= 1
        return channel.popleft()

    def sessions(self):
        """The sessions that routers hold."""
        return [place.session for router in self.routers for place in router.places if place.is_held()]

    def is_quiet(self):
        """Whether nothing is left to do."""
        if self.on_way or not all(part.is_at_rest() for part in (*self.routers, *self.fars, self.operator)):
            return False
        for session in self.sessions():
            if session.end.acked != session.put:
                return False
            if session.state != CLOSED and session.waits(self.fars[session.peering.number].said):
                return False
        return True
