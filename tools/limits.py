#!/usr/bin/env python3
"""Meets each limit of an input and of a run, and passes it by one, and looks at what a program says.

    tools/limits.py [--only WORD] [--parts FILE] PROGRAM

Each case is an input, the command that is done on it, and what is to come of it by docs/INPUT.md: the status, and lines that the
program is to write. With --parts, PROGRAM check is done on each first part of a file as well: it is to write two lines with status 0
or 2. A case that ends otherwise is printed, with the lines that it wrote, and then the status is 1. --only does the cases whose
names have a word in them.
"""
import argparse
import collections
import json
import pathlib
import re
import struct
import subprocess
import sys
import time

from hostile_says import attribute, update

SECONDS = 600
HOME_AS = 65000
MOST_BYTES = 4_194_304
MOST_SAID = 1_048_576
MOST_BEATEN = 524_288
MOST_EVENTS = 4_194_304
DEFAULT_OPENING = 48
Case = collections.namedtuple("Case", "name words text status lines")


def table(kind, /, **keys):
    """A table of an input. Its values are numbers, flags, texts, or lists of numbers or texts, which JSON writes as TOML does."""
    return f"[[{kind}]]\n" + "".join(f"{key} = {json.dumps(value)}\n" for key, value in keys.items()) + "\n"


def router(place, **keys):
    return table("router", **{"name": f"r{place}", "id": f"10.255.0.{place + 1}", "sessions": 4, **keys})


def peering(place, at="r0", **keys):
    addresses = {"remote_address": f"192.0.2.{2 * place + 1}", "local_address": f"192.0.2.{2 * place + 2}"}
    return table("peering", **{"name": f"c{place}", "at": at, "remote_as": 65001 + place, **addresses, **keys})


def announce(place, prefixes, **keys):
    return table("step", do="announce", peering=f"c{place}", prefixes=list(prefixes), **keys)


def raw(place, octets):
    return table("step", do="raw", peering=f"c{place}", hex=octets.hex())


def graft(place, to):
    return table("step", do="graft", peering=f"c{place}", to=to)


def settle(**keys):
    return table("step", do="settle", **keys)


def prefixes(count, begin=0):
    """Different prefixes."""
    return [f"10.{place >> 8}.{place & 255}.0/24" for place in range(begin, begin + count)]


def lab(*tables):
    return f"home_as = {HOME_AS}\n\n" + "".join(tables)


def rules(count, **keys):
    """A router with a policy of this many rules, which are the same."""
    return lab(router(0), policy(0), *[table("router.policy.rule", **keys)] * count)


def policy(place):
    return table("router.policy", name=f"p{place}")


def cost(one, other, number):
    return table("cost", **{"from": f"r{one}", "to": f"r{other}", "cost": number})


def costs(count):
    """Costs of the ways between eight routers, of which there are 56; one more is one of these again."""
    all_ways = [cost(one, other, 9) for one in range(8) for other in range(8) if one != other]
    return (all_ways * 2)[:count]


def repeated(segment, after=1):
    return table("fault", peering="c0", way="home", segment=segment, kind="repeat", after=after)


def lost(segment):
    return table("fault", peering="c0", way="home", segment=segment, kind="lose")


def announced(count):
    """Steps that announce this many different prefixes."""
    return [announce(0, prefixes(min(200, count - at), at)) for at in range(0, count, 200)]


BASE = (router(0), router(1), peering(0))


def ok(routers, peerings=0, steps=0):
    """The line of an accepted input."""
    return f"ok routers {routers} peerings {peerings} steps {steps}"


def checked(name, text, line):
    """A case of check: the input is one, or the line says why not."""
    return Case(name, ["check"], text, 0 if line.startswith("ok ") else 2, [line if line.startswith("ok ") else f"bad input: {line}"])


def ran(name, text, lines, status=0):
    return Case(name, ["run"], text, status, lines)


def counted(name, most, text_of, accepted, limit, least=None):
    """Cases of check at a limit and one past it, and one below the least number where that isn't 0. The limit is a path, or a whole line."""
    yield checked(f"{name} at {most}", text_of(most), accepted)
    yield checked(f"{name} past {most}", text_of(most + 1), limit if " " in limit else f"limit {limit} {most + 1}")
    if least is not None:
        yield checked(f"{name} below {least}", text_of(least - 1), f"limit {limit} {max(0, least - 1)}")


def reading_cases():
    """Limits of numbers and counts that an input has."""
    yield from counted("routers", 8, lambda n: lab(*map(router, range(n))), ok(8), "router")
    yield checked("no router", lab("router = []\n"), "limit router 0")
    yield from counted("peerings", 32, lambda n: lab(router(0, sessions=32), *map(peering, range(n))), ok(1, 32), "peering")
    yield from counted("sessions", 32, lambda n: lab(router(0, sessions=n)), ok(1), "router[0].sessions")
    yield from counted("peerings in a room of 2", 2, lambda n: lab(router(0, sessions=2), *map(peering, range(n))), ok(1, 2), "sessions")
    yield from counted("costs", 56, lambda n: lab(*map(router, range(8)), *costs(n)), ok(8), "cost")
    yield from counted("cost", 65535, lambda n: lab(router(0), router(1), cost(0, 1, n)), ok(2), "cost[0].cost")
    yield from counted("networks", 256, lambda n: lab(router(0, networks=prefixes(n))), ok(1), "router[0].networks")
    yield from counted("policies", 16, lambda n: lab(router(0), *map(policy, range(n))), ok(1), "router[0].policy")
    yield from counted("rules", 64, rules, ok(1), "router[0].policy[0].rule")
    yield from counted("prepend", 8, lambda n: rules(1, prepend=n), ok(1), "router[0].policy[0].rule[0].prepend")
    yield from counted("le", 32, lambda n: rules(1, prefix="10.0.0.0/8", le=n), ok(1), "router[0].policy[0].rule[0].le")
    yield from counted("pref", 4294967295, lambda n: rules(1, pref=n), ok(1), "router[0].policy[0].rule[0].pref")
    yield from counted("home_as", 4294967295, lambda n: f"home_as = {n}\n" + router(0), ok(1), "home_as", 1)
    yield from counted("remote_as", 4294967295, lambda n: lab(router(0), peering(0, remote_as=n)), ok(1, 1), "peering[0].remote_as", 1)
    yield from counted("steps", 4096, lambda n: lab(*BASE, announce(0, ["10.0.0.0/8"]) * n), ok(2, 1, 4096), "step")
    yield from counted("prefixes of a step", 200, lambda n: lab(*BASE, announce(0, prefixes(n))), ok(2, 1, 1), "step[0].prefixes", 1)
    yield from counted("ASes of a path", 64, lambda n: lab(*BASE, announce(0, ["10.0.0.0/8"], path=[7] * n)), ok(2, 1, 1), "step[0].path")
    yield from counted("octets of a raw step", 4096, lambda n: lab(*BASE, raw(0, bytes(n))), ok(2, 1, 1), "step[0].hex", 1)
    yield from counted("octets of an opening", 4096, lambda n: lab(router(0), peering(0, opening="00" * n)), ok(1, 1), "peering[0].opening")
    yield from counted("faults", 1024, lambda n: lab(*BASE, *map(repeated, range(1, n + 1))), ok(2, 1), "fault")
    yield from counted("segment", 1_000_000, lambda n: lab(*BASE, repeated(n)), ok(2, 1), "fault[0].segment", 1)
    yield from counted("after", 6, lambda n: lab(*BASE, repeated(1, n)), ok(2, 1), "fault[0].after", 1)


def hold_cases():
    """Hold times, each with those next to it."""
    for key in ("hold", "home_hold"):
        for time_out in (0, 3, 65535):
            yield checked(f"{key} {time_out}", lab(router(0), peering(0, **{key: time_out})), ok(1, 1))
        for time_out in (1, 2, 65536):
            yield checked(f"{key} {time_out}", lab(router(0), peering(0, **{key: time_out})), f"limit peering[0].{key} {time_out}")
        yield checked(f"{key} -1", lab(router(0), peering(0, **{key: -1})), f"limit peering[0].{key} 0")


def whole_cases():
    """Limits of the whole: names that are counted, prefixes, settles, grafts, what a remote says, and bytes."""
    yield from counted("different prefixes", 4096, lambda n: lab(*BASE, *announced(n)), ok(2, 1, 21), "prefixes")
    yield from counted("settles", 64, lambda n: lab(*BASE, settle() * n), ok(2, 1, 64), "settles")
    yield from counted("settles with an added one", 63, lambda n: lab(*BASE, settle() * n, graft(0, "r1")), ok(2, 1, 64), "limit settles 65")
    yield from counted("grafts", 256, lambda n: lab(*BASE, graft(0, "r1") * n), ok(2, 1, 256), "grafts")
    yield from counted("rounds", 16384, lambda n: lab(*BASE, settle(rounds=n)), ok(2, 1, 1), "step[0].rounds", 1)
    yield from counted("least", 1024, lambda n: lab(*BASE, settle(least=n)), ok(2, 1, 1), "step[0].least")
    yield from counted("least within rounds", 9, lambda n: lab(*BASE, settle(rounds=9, least=n)), ok(2, 1, 1), "step[0].least")
    yield from counted("said", MOST_SAID, lambda n: lab(*BASE, *said_steps(n)), ok(2, 1, 256), "said")
    beating = router(0) + peering(0, home_hold=30, hold=90)
    yield from counted("said with beats", MOST_BEATEN, lambda n: lab(beating, *announced_steps(n)), ok(1, 1, 624), "said")
    yield checked(f"{MOST_BYTES} bytes", "\n" * MOST_BYTES, "shape home_as")
    yield checked(f"{MOST_BYTES + 1} bytes", "\n" * (MOST_BYTES + 1), f"limit input {MOST_BYTES + 1}")
    full = lab(*BASE)
    yield checked("an input of all bytes", full + "\n" * (MOST_BYTES - len(full)), ok(2, 1))
    too_long = full + "\n" * (MOST_BYTES + 1 - len(full))
    yield ran("a run of too many bytes", too_long, [f"bad input: limit input {MOST_BYTES + 1}"], 2)


def route_of(octets, number, as_number=65001, mark=0):
    """An UPDATE of this many octets: one prefix /24 and an unknown attribute, whose first two octets are a mark."""
    known = attribute(0x40, 1, b"\0") + attribute(0x40, 2, b"\2\1" + struct.pack(">H", as_number)) + attribute(0x40, 3, b"\xc0\0\2\1")
    value = octets - 23 - len(known) - 4 - 4
    assert value > 255
    return update(known + attribute(0xC0, 99, struct.pack(">H", mark) + bytes(value - 2)), [(10 << 24 | number << 8, 24)])


def said_steps(count):
    """Steps with which a remote says this many octets, its opening included: an octet too many begins a further message."""
    left = min(count, MOST_SAID) - DEFAULT_OPENING
    lengths = [4096] * (left // 4096) + [left % 4096]
    steps = [raw(0, route_of(length, number)) for number, length in enumerate(lengths)]
    return steps + [raw(0, b"\xff") for _ in range(count - MOST_SAID)]


def announced_steps(count):
    """Announce steps that are said in this many octets, the opening included: 41 for each, and 4 for each prefix but one, which has 4 or 5."""
    whole, rest = divmod(min(count, MOST_BEATEN) - DEFAULT_OPENING, 41 + 4 * 200)
    assert (rest - 41) % 4 == 0
    last = prefixes((rest - 41) // 4)
    if count > MOST_BEATEN:
        last[0] = "10.0.0.0/32"
    return [announce(0, prefixes(200)) * whole, announce(0, last)]


def held(place, at, heard=0, told=0, state="Established"):
    """The line of a session."""
    return f"peering c{place} at {at} state {state} heard {heard} told {told}"


def session_cases():
    """As many sessions and moves as there may be."""
    full = [router(0, sessions=32), router(1, sessions=32), *map(peering, range(32))]
    said = [announce(place, prefixes(1, place)) for place in range(32)]
    yield ran("32 remotes at a router", lab(*full, *said), ["result settled"] + [held(place, "r0", 1, 31) for place in range(32)])
    moved = [f"graft {place + 1} c{place} r0 r1 accepted" for place in range(32)]
    lines = ["result settled"] + [held(place, "r1", 1, 31) for place in range(32)] + moved
    yield ran("32 remotes moved", lab(*full, *said, settle(), *(graft(place, "r1") for place in range(32))), lines)
    filled = lab(router(0), router(1, sessions=2), *map(peering, range(3)), *(settle() + graft(place, "r1") for place in range(3)))
    lines = ["result settled", "graft 1 c0 r0 r1 accepted", "graft 2 c1 r0 r1 accepted", "graft 3 c2 r0 r1 refused RouterFull(2)"]
    yield ran("a room filled, and one more", filled, lines)
    none = lab(router(0), router(1, sessions=0), peering(0), settle(), graft(0, "r1"))
    yield ran("a room of none", none, ["result settled", "graft 1 c0 r0 r1 refused RouterFull(0)"])
    moves = [f"graft {k + 1} c0 r{k % 2} r{(k + 1) % 2} accepted" for k in range(256)]
    to_and_fro = lab(*BASE, settle(), *(graft(0, f"r{(k + 1) % 2}") for k in range(256)))
    yield ran("256 grafts", to_and_fro, ["result settled", *moves, held(0, "r0")])
    groups = [announce(0, prefixes(1, k)) + settle() for k in range(64)]
    yield ran("64 settles", lab(*BASE, *groups), ["result settled", held(0, "r0", 64)])
    eight = [router(place, sessions=32) for place in range(8)] + [peering(place, f"r{place % 8}") for place in range(32)]
    lines = ["result settled"] + [held(place, f"r{place % 8}", 1, 31) for place in range(32)]
    yield ran("8 routers and 32 remotes", lab(*eight, *said), lines)


def round_cases():
    """Settles that may make few rounds, or many."""
    losses = [lost(segment) for segment in range(1, 1025)]
    yield ran("rounds 1", lab(*BASE, settle(rounds=1)), ["result unsettled step 1 rounds 1"], 3)
    yield ran("rounds 16384", lab(*BASE, settle(rounds=16384)), ["result settled"])
    lines = ["result unsettled step 1 rounds 300", held(0, "r0", state="OpenSent")]
    yield ran("rounds 300 and 1,024 lost segments", lab(*BASE, *losses, settle(rounds=300)), lines, 3)
    yield ran("1,024 lost segments", lab(*BASE, *losses, settle(rounds=16384)), ["result settled", held(0, "r0")])
    yield ran("least 1024", lab(*BASE, settle(least=1024)), ["result settled"])


def timer_cases():
    """Runs with the least and the greatest hold times."""
    # With a beat in each round something is unacknowledged at each mark, so such a session is never at rest.
    each_round = lab(router(0), peering(0, home_hold=3, hold=3), settle(rounds=300))
    yield ran("hold time 3 with beats", each_round, ["result unsettled step 1 rounds 300", held(0, "r0")], 3)
    kept = lab(router(0), router(1), peering(0, home_hold=65535, hold=65535), settle(least=200), graft(0, "r1"), settle(least=200))
    yield ran("hold time 65535 with beats", kept, ["result settled", held(0, "r1"), "graft 1 c0 r0 r1 accepted"])
    silent = lab(router(0), peering(0, home_hold=3, hold=3, beats=False), settle(least=20))
    yield ran("hold time 3 without beats", silent, ["result settled", held(0, "r0", state="Closed")])
    silent = lab(router(0), peering(0, home_hold=65535, hold=65535, beats=False), settle(least=1024))
    yield ran("hold time 65535 without beats", silent, ["result settled", held(0, "r0")])
    for time_out, result in ((29, "refused HoldTooShort(29)"), (30, "accepted")):
        text = lab(router(0), router(1), peering(0, home_hold=time_out, hold=90), settle(), graft(0, "r1"))
        yield ran(f"hold time {time_out} moved", text, [f"graft 1 c0 r0 r1 {result}"])


def long_says(count):
    """Steps by which two remotes say this many UPDATEs in turn, each of which is told in 4,000 octets, with the home network's AS in front."""
    return [raw(number % 2, route_of(3998, number, 65001 + number % 2, number)) for number in range(count)]


def last_say(octets):
    """A step whose UPDATE is told in this many octets."""
    return raw(0, route_of(octets - 2, 999, 65001, 999))


def stream_cases():
    """Streams that are filled to the last octet, and one more."""
    yield ran("a remote says all that it may", lab(*BASE, *said_steps(MOST_SAID)), ["result settled", held(0, "r0", 256)])
    # Behind the 48 octets of OPEN and KEEPALIVE 261 UPDATEs of 4,000 octets fit, and 432 octets more.
    three = [router(0), *map(peering, range(3))]
    full = lab(*three, *long_says(261), settle(), last_say(432))
    yield ran("a stream filled to 1,044,480", full, ["result settled", held(2, "r0", 0, 262)])
    past = lab(*three, *long_says(261), settle(), last_say(433))
    yield ran("a stream past 1,044,480", past, ["result stream-full peering c2 length 1044481"], 7)
    yield ran("a stream far past 1,044,480", lab(*three, *long_says(400)), ["result stream-full peering c2 length 1048048"], 7)


def journal_text(groups):
    """Groups that announce and withdraw 4,096 prefixes in turn, among 8 routers."""
    route = attribute(0x40, 1, b"\0") + attribute(0x40, 2, b"\2\1\xfd\xe9") + attribute(0x40, 3, b"\xc0\0\2\1")
    places = [(10 << 24 | place << 8, 24) for place in range(4096)]
    steps = []
    for group in range(groups):
        for at in range(0, 4096, 1000):
            part = places[at : at + 1000]
            octets = update(withdrawn=part) if group % 2 else update(route, part)
            steps += [raw(0, octets[:4096])] + [raw(0, octets[4096:])] * (len(octets) > 4096)
        steps.append(settle())
    return lab(*map(router, range(8)), peering(0), *steps)


def journal_cases():
    """A journal that is nearly full, and one that is full. Each prefix of a group has 120 events: each of eight routers decides it, tells seven
    others that it did, and hears of seven. So 8 groups, of 491,520 events and few others each, stay below the limit, and 9 don't."""
    yield ran("a journal nearly full", journal_text(8), ["result settled", held(0, "r0")])
    yield ran("a journal full", journal_text(9), ["result journal-full events E"], 7)
    yield ran("a journal full, with more to come", journal_text(60), ["result journal-full events E"], 7)


def cases():
    for group in (reading_cases, hold_cases, whole_cases, session_cases, round_cases, timer_cases, stream_cases, journal_cases):
        yield from group()


def ended(command, text):
    """How a command ends: status, lines and standard error."""
    try:
        run = subprocess.run(command, input=text.encode(), capture_output=True, timeout=SECONDS)
    except subprocess.TimeoutExpired:
        return None, [], f"no end in {SECONDS} seconds"
    return run.returncode, run.stdout.decode("utf-8", "backslashreplace").splitlines(), run.stderr.decode("utf-8", "backslashreplace")


def is_told(line, lines):
    """Whether a line is among those that were written. The number E of events is one that fills a journal."""
    if not line.endswith(" E"):
        return line in lines
    numbers = [int(it.rsplit(" ", 1)[1]) for it in lines if re.fullmatch(re.escape(line[:-1]) + r"\d+", it)]
    return len(numbers) == 1 and numbers[0] >= MOST_EVENTS


def is_verdict(status, lines):
    """Whether check wrote as many lines as it is to: two of an input, the second with its two tests, and else one."""
    return len(lines) == 1 if status != 0 else len(lines) == 2 and re.fullmatch("even (yes|no) sure (yes|no)", lines[1]) is not None


def try_case(program, case):
    """Does a case, and answers whether it ends as it is to."""
    begin = time.monotonic()
    status, lines, said = ended([program, *case.words], case.text)
    missing = [line for line in case.lines if not is_told(line, lines)]
    is_sound = status == case.status and not said and not missing and (case.words != ["check"] or is_verdict(status, lines))
    took = time.monotonic() - begin
    print(f"{'sound' if is_sound else 'WRONG'}: {case.name}: status {status}, {lines[0] if lines else ''} ({took:.1f} s)", flush=True)
    if not is_sound:
        print(f"  wanted: status {case.status}, {missing[:3]}; said {said[:200]!r}")
    return is_sound


def try_parts(program, name):
    """Checks each first part of a file, and answers how many there are, and how many are answered as they are not to be."""
    text = pathlib.Path(name).read_text()
    counts = collections.Counter()
    wrong = 0
    for size in range(len(text) + 1):
        status, lines, said = ended([program, "check"], text[:size])
        is_sound = status in (0, 2) and is_verdict(status, lines) and not said and lines[0].startswith("ok " if status == 0 else "bad input: ")
        counts[status] += 1
        if not is_sound:
            wrong += 1
            print(f"WRONG: the first {size} bytes of {name}: status {status}, {lines[:2]}, {said[:200]!r}")
    statuses = ", ".join(f"status {status}: {count}" for status, count in sorted(counts.items(), key=str))
    print(f"first parts of {name}: {len(text) + 1}; {statuses}; {wrong} wrong", flush=True)
    return len(text) + 1, wrong


def main():
    options = argparse.ArgumentParser(description=__doc__, formatter_class=argparse.RawDescriptionHelpFormatter)
    options.add_argument("--only", default="")
    options.add_argument("--parts")
    options.add_argument("program")
    given = options.parse_args()
    results = [try_case(given.program, case) for case in cases() if given.only in case.name]
    parts, wrong = try_parts(given.program, given.parts) if given.parts else (0, 0)
    wrong += results.count(False)
    print(f"{len(results)} cases at limits and past them, {parts} first parts; {wrong} that ended as they are not to")
    return 1 if wrong else 0


if __name__ == "__main__":
    sys.exit(main())
