"""Which routes routers choose where all is settled: RFC 4271, sections 9.1.2 and 9.2, for routers without policies and own networks,
each of which tells the others its best route where that came from a peering of its own. It is written from the standard and
README.md alone, for tests of whole runs.
"""
import collections

from bgp_reader import neighbour

PREFERENCE = 100
COST = 1
# A route that a router may choose: whence it is, a peering or a router; and by what ties are broken. The identifier and the address
# of a route that a router told are those of that router.
Candidate = collections.namedtuple("Candidate", "source route external identifier address")


def path_length(path):
    """The number of ASes of a path, in which a set counts as one."""
    return sum(len(ases) if kind == 2 else 1 for kind, ases in path)


def least(candidates, key):
    lowest = min(map(key, candidates))
    return [it for it in candidates if key(it) == lowest]


def choice(candidates, home_as):
    """The candidate that is chosen: each rule is applied to all that the rules before it left."""
    candidates = least(candidates, lambda it: path_length(it.route.path))
    candidates = least(candidates, lambda it: it.route.origin)
    near = {it: neighbour(it.route.path, home_as) for it in candidates}
    metrics = {}
    for it in candidates:
        metrics[near[it]] = min(it.route.med, metrics.get(near[it], it.route.med))
    candidates = [it for it in candidates if it.route.med == metrics[near[it]]]
    candidates = least(candidates, lambda it: not it.external)
    candidates = least(candidates, lambda it: it.identifier)
    return least(candidates, lambda it: it.address)[0]


def rank(candidate):
    """What is compared before MED: a lower one is better."""
    return path_length(candidate.route.path), candidate.route.origin


def best_routes(heard, routers, home_as):
    """For each router its best candidate of each prefix. `heard` has for each router the candidates of its own peerings, by prefix;
    `routers` their identifiers."""
    tables = {router: {} for router in routers}
    for prefix in sorted({prefix for candidates in heard.values() for prefix in candidates}):
        firsts = {router: choice(heard[router][prefix], home_as) for router in routers if prefix in heard[router]}
        leaders = [router for router in firsts if rank(firsts[router]) == min(map(rank, firsts.values()))]
        for router in routers:
            told = [
                Candidate(f"router {other}", firsts[other].route, False, routers[other], routers[other]) for other in leaders if other != router
            ]
            tables[router][prefix] = choice(heard[router].get(prefix, []) + told, home_as)
    return tables


def path_text(path):
    """A path as reports print it."""
    parts = [",".join(map(str, ases)) for _, ases in path]
    return ",".join(text if kind == 2 else "{" + text + "}" for (kind, _), text in zip(path, parts)) or "-"


def best_line(prefix, candidate):
    """The line of a best route."""
    address, length = prefix
    dots = ".".join(str(address >> shift & 255) for shift in (24, 16, 8, 0))
    return f"best {dots}/{length} {candidate.source} pref {PREFERENCE} path {path_text(candidate.route.path)}"
