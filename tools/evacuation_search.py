#!/usr/bin/env python3
"""Compares plans of where an emptied router's peerings go with a search of all ways to give them.

    tools/evacuation_search.py [--count N] [--seed N] [--program PROGRAM]

N random cases, 10,000 by default, have up to 6 routers and 8 peerings. A plan is made of each as `plan` of the crate `evacuation` says:
each peering in turn goes to the router other than the emptied one whose load, with the peerings already given, is least among those
below their room, and of several with that load to the one with the lowest number. A peering has no target where no such router is below
its room.

The search tries all ways to give at most that many peerings, each way by how many each router gets, as one peering is like another. It
keeps those in which nobody passes its room with what it gets, and the emptied router gets nothing. A plan is to be one of them; to give
as many as any of them does, which is all or as many as there are free places; and where it gives all, no way that gives all is to have a
lower greatest load among the other routers. A case of which this doesn't hold is printed on standard error, and then the status is 1.

With a program (graftlab) the targets are those of its report: each case is a laboratory whose last step empties the router, in which all
peerings stand where they start, so that no load is above its room. They are also to be the targets of the plan.
"""
import argparse
import collections
import functools
import random
import re
import subprocess
import sys

ROUTERS, PEERINGS = 6, 8
# Loads and rooms by router, the emptied router, and how many peerings it gives away.
Case = collections.namedtuple("Case", "loads rooms emptied count")
# How many ways there are; how many peerings most of them give at most; and of those that give all, the greatest loads that are least
# and highest, or none.
Found = collections.namedtuple("Found", "ways most least highest")


def random_case(choose):
    """A case. In some most routers are full, in others all have room."""
    routers = choose.randint(1, ROUTERS)
    most_load, most_room = choose.randint(0, 6), choose.randint(0, 12)
    loads = [choose.randint(0, most_load) for _ in range(routers)]
    rooms = [choose.randint(0, most_room) for _ in range(routers)]
    return Case(loads, rooms, choose.randrange(routers), choose.randint(0, PEERINGS))


def laboratory_case(choose):
    """A case that a laboratory of at most 32 peerings can begin with."""
    routers = choose.randint(1, ROUTERS)
    emptied = choose.randrange(routers)
    loads = [choose.randint(0, PEERINGS if router == emptied else 4) for router in range(routers)]
    rooms = [max(1, load + choose.choice([0, 0, 1, 2, 4])) for load in loads]
    return Case(loads, rooms, emptied, loads[emptied])


def laboratory(case):
    """The laboratory as the program reads it: the emptied router's peerings are named p, the others o."""
    places = [case.emptied] * case.count + [router for router, load in enumerate(case.loads) for _ in range(load) if router != case.emptied]
    text = ["home_as = 65000"]
    for router, room in enumerate(case.rooms):
        text.append(f'[[router]]\nname = "r{router}"\nid = "10.255.0.{router + 1}"\nsessions = {room}')
    for number, place in enumerate(places):
        name = f"p{number}" if number < case.count else f"o{number}"
        text.append(f'[[peering]]\nname = "{name}"\nat = "r{place}"\nremote_as = {65001 + number}')
        text.append(f'remote_address = "192.0.2.{4 * number + 1}"\nlocal_address = "192.0.2.{4 * number + 2}"')
    return "\n".join([*text, f'[[step]]\ndo = "settle"\n[[step]]\ndo = "evacuate"\nrouter = "r{case.emptied}"\n'])


def reported(program, case):
    """The targets that the program's report names, in the order of the peerings."""
    text = subprocess.run([program, "run", "--workers", "1"], input=laboratory(case), capture_output=True, text=True, check=False).stdout
    targets = {}
    for peering, target, result in re.findall(r"^graft \d+ p(\d+) \S+ r(\d+) (.*)$", text, re.MULTILINE):
        targets[int(peering)] = {"accepted": int(target), "refused NoTarget": None}.get(result, result)
    return [targets.get(peering, "none") for peering in range(case.count)]


def plan(case):
    """The target of each peering in turn, or none."""
    loads = list(case.loads)
    targets = []
    for _ in range(case.count):
        free = [router for router in range(len(loads)) if router != case.emptied and loads[router] < case.rooms[router]]
        target = min(free, key=lambda router: (loads[router], router), default=None)
        if target is not None:
            loads[target] += 1
        targets.append(target)
    return targets


@functools.lru_cache(maxsize=None)
def shares(routers, count):
    """All ways to give routers at most `count` peerings: how many each gets."""
    if routers == 0:
        return [()]
    return [(first, *others) for first in range(count + 1) for others in shares(routers - 1, count - first)]


def keeps_rooms(case, given):
    """Whether each router that gets peerings has room for them and isn't the emptied one."""
    routers = enumerate(zip(given, case.loads, case.rooms))
    return all(more == 0 or (router != case.emptied and load + more <= room) for router, (more, load, room) in routers)


def greatest_load(case, given):
    """The greatest load among the routers other than the emptied one, with what they get."""
    return max((load + more for router, (load, more) in enumerate(zip(case.loads, given)) if router != case.emptied), default=0)


def free_places(case):
    """How many peerings the routers other than the emptied one have room for."""
    return sum(max(room - load, 0) for router, (load, room) in enumerate(zip(case.loads, case.rooms)) if router != case.emptied)


def search(case):
    """What is found in all ways that keep the rooms."""
    ways = [given for given in shares(len(case.loads), case.count) if keeps_rooms(case, given)]
    greatest = [greatest_load(case, given) for given in ways if sum(given) == case.count]
    return Found(len(ways), max(map(sum, ways)), min(greatest, default=None), max(greatest, default=None))


def flaws(case, targets, found):
    """What is wrong with targets, whoever named them."""
    given = tuple(targets.count(router) for router in range(len(case.loads)))
    wanted = min(case.count, free_places(case))
    if found.most != wanted:
        return [f"the best way gives {found.most}, and {wanted} are what there are places and peerings for"]
    if len(targets) != case.count or sum(given) + targets.count(None) != case.count:
        return ["a peering has no answer, or one that is no router"]
    if not keeps_rooms(case, given):
        return ["a router passes its room, or the emptied one gets a peering"]
    if sum(given) != found.most:
        return [f"{sum(given)} are given, and the best way gives {found.most}"]
    if sum(given) == case.count and greatest_load(case, given) != found.least:
        return [f"the greatest load is {greatest_load(case, given)}, and the best way has {found.least}"]
    return []


def main():
    options = argparse.ArgumentParser(description=__doc__, formatter_class=argparse.RawDescriptionHelpFormatter)
    options.add_argument("--count", type=int, default=10000)
    options.add_argument("--seed", type=int, default=7)
    options.add_argument("--program")
    given = options.parse_args()
    choose = random.Random(given.seed)
    ways = all_given = better = wrong = 0
    for number in range(given.count):
        case = laboratory_case(choose) if given.program else random_case(choose)
        found = search(case)
        ways += found.ways
        all_given += found.least is not None
        better += found.least != found.highest
        targets = reported(given.program, case) if given.program else plan(case)
        told = flaws(case, targets, found) or ["the targets aren't those of the plan"] * (targets != plan(case))
        wrong += bool(told)
        for flaw in told:
            print(f"case {number}: {case}: {flaw}", file=sys.stderr)
    print(
        f"{given.count} cases, {ways} ways that keep the rooms: {all_given} cases in which all can be given, in {better} of them with greatest"
        f" loads that differ, {given.count - all_given} in which fewer can; {wrong} plans that aren't as they are to be"
    )
    return 1 if wrong else 0


if __name__ == "__main__":
    sys.exit(main())
