#!/usr/bin/env python3
"""Asks a program of generated laboratories whether they are even and sure, and holds its answer against a reading of its own.

    tools/even_checks.py [--count N] [--seed N] [--runs] PROGRAM

N laboratories, 1,000 by default, are made as one_answer.py makes its own, with one thing or two changed at random, or as hostile_remotes.py does,
whose remotes say what they like. PROGRAM check is done on each, and the second line of its answer is worked out from the text: by tomllib, by
bgp_reader.py, which reads messages after the standards, and by what docs/INPUT.md says of policies and of the two tests. A laboratory of which the
answers differ is kept in the current folder as checked.N, and the status is 1 then. Those with an AS4_PATH are left out: bgp_reader.py has no merge.

With --runs each that is sure is run by 1 and 3 workers too, and the results of its grafts are held against what the script says of them.
"""
import argparse
import collections
import pathlib
import random
import re
import struct
import subprocess
import sys
import tomllib

import bgp_reader
import hostile_remotes
import one_answer
from hostile_says import attribute, capability, message, parameter, prefix_octets, update

SECONDS = 60
ORIGINS = {"igp": 0, "egp": 1, "incomplete": 2}


class Unread(Exception):
    """A laboratory that this reading leaves out."""


def octets(address):
    return bytes(map(int, address.split(".")))


def prefix_of(text):
    address, length = text.split("/")
    number, length = int.from_bytes(octets(address), "big"), int(length)
    return (number >> (32 - length) << (32 - length), length)


def default_opening(peering):
    """The OPEN of a peering's own values, and a KEEPALIVE."""
    wide, number = peering.get("remote_as4", peering.get("as4", False)), peering["remote_as"]
    parameters = parameter(capability(65, struct.pack(">I", number))) if wide else b""
    body = struct.pack(">BHH", 4, number if number < 65536 else bgp_reader.AS_TRANS, peering.get("hold", 180))
    body += octets(peering.get("remote_id", peering["remote_address"])) + bytes([len(parameters)]) + parameters
    return message(bgp_reader.OPEN, body) + message(bgp_reader.KEEPALIVE)


def announced_update(step, peering, wide):
    """The UPDATE of an announce step."""
    ases = step.get("path", [peering["remote_as"]])
    size = 4 if wide else 2
    if not wide and any(number > 65535 for number in ases):
        raise Unread
    path = bytes([bgp_reader.SEQUENCE, len(ases)]) + b"".join(number.to_bytes(size, "big") for number in ases) if ases else b""
    found = attribute(0x40, bgp_reader.ORIGIN, bytes([ORIGINS[step.get("origin", "igp")]])) + attribute(0x40, bgp_reader.AS_PATH, path)
    found += attribute(0x40, bgp_reader.NEXT_HOP, octets(step.get("next_hop", peering["remote_address"])))
    if "med" in step:
        found += attribute(0x80, bgp_reader.MED, struct.pack(">I", step["med"]))
    return update(found, [prefix_of(it) for it in step["prefixes"]])


def said(lab, peering):
    """All that a remote says: its opening, and what the steps have it say."""
    wide = peering.get("as4", False) and peering.get("remote_as4", peering.get("as4", False))
    whole = bytes.fromhex(peering["opening"]) if "opening" in peering else default_opening(peering)
    for step in lab.get("step", []):
        if step.get("peering") != peering["name"]:
            continue
        if step["do"] == "announce":
            whole += announced_update(step, peering, wide)
        elif step["do"] == "withdraw":
            whole += update(withdrawn=[prefix_of(it) for it in step["prefixes"]])
        elif step["do"] == "raw":
            whole += bytes.fromhex(step["hex"])
    return whole


def frames(whole):
    """The messages up to a faulty header or a message that isn't whole, each its type and body."""
    while len(whole) >= bgp_reader.HEADER:
        try:
            length, kind = bgp_reader.test_header(whole[: bgp_reader.HEADER])
        except bgp_reader.Fault:
            return
        if len(whole) < length:
            return
        yield kind, whole[bgp_reader.HEADER : length]
        whole = whole[length:]


def opened(peering, whole):
    """The hold time and the four-octet AS number of the OPEN at the beginning, where a sound one stands there."""
    for kind, body in frames(whole):
        try:
            return bgp_reader.read_open(body, peering["remote_as"], peering.get("as4", False)) if kind == bgp_reader.OPEN else None
        except bgp_reader.Fault:
            return None
    return None


def announced(peering, whole):
    """Each prefix that the messages announce, read as in Established, with its route."""
    first = opened(peering, whole)
    wide = peering.get("as4", False) and first is not None and first[1] is not None
    for kind, body in frames(whole):
        if kind != bgp_reader.UPDATE:
            continue
        try:
            _, attributes, prefixes = bgp_reader.read_update(body, wide)
        except bgp_reader.Fault:
            continue
        if prefixes:
            route = bgp_reader.route_of(attributes, wide)
            if route.path is None:
                raise Unread
            yield from ((prefix, route) for prefix in prefixes)


def is_matched(rule, prefix, route):
    """Whether all parts of a rule match."""
    if "prefix" in rule:
        address, length = prefix_of(rule["prefix"])
        within = prefix[1] >= length and prefix[0] >> (32 - length) << (32 - length) == address if length else True
        least = rule.get("ge", length)
        most = rule.get("le", 32 if "ge" in rule else length)
        if not (within and least <= prefix[1] <= most):
            return False
    if "has_as" in rule and not any(rule["has_as"] in ases for _, ases in route.path):
        return False
    return "origin" not in rule or ORIGINS[rule["origin"]] == route.origin


def let_in(rules, peering, prefix, route):
    """What a policy makes of a route, None where it denies it."""
    for rule in rules:
        if is_matched(rule, prefix, route):
            if rule.get("deny", False):
                return None
            path = route.path
            for _ in range(rule.get("prepend", 0)):
                first = path[0] if path and path[0][0] == bgp_reader.SEQUENCE else None
                path = ((bgp_reader.SEQUENCE, (peering["remote_as"], *(first[1] if first else ()))), *path[1 if first else 0 :])
            return route._replace(med=rule.get("med", route.med), path=path)
    return route


def is_even(lab):
    """Whether of one prefix and neighbour AS all routes that routers could have by themselves have one MED."""
    found = collections.defaultdict(set)
    for router in lab["router"]:
        for network in router.get("networks", []):
            found[prefix_of(network), lab["home_as"]].add(0)
    for peering in lab.get("peering", []):
        policies = [it["rule"] if "rule" in it else [] for router in lab["router"] for it in router.get("policy", []) if it["name"] == peering.get("import")]
        for prefix, route in announced(peering, said(lab, peering)):
            for one in [route] + [let_in(rules, peering, prefix, route) for rules in policies]:
                if one is not None:
                    found[prefix, bgp_reader.neighbour(one.path, lab["home_as"])].add(one.med)
    return all(len(meds) == 1 for meds in found.values())


def has_timer(lab, peering):
    """Whether a hold time runs on a session."""
    first = opened(peering, said(lab, peering))
    return min(peering.get("home_hold", 0), first[0] if first else 0) > 0


def is_sure(lab):
    """Whether the script alone decides what becomes of its grafts."""
    steps, peerings = lab.get("step", []), lab.get("peering", [])
    if any(router["sessions"] < len(peerings) for router in lab["router"]) or any(has_timer(lab, it) for it in peerings):
        return False
    settled = False
    for step in steps:
        settled = settled or step["do"] == "settle"
        if step["do"] == "evacuate":
            return False
        if step["do"] == "graft":
            peering = next(it for it in peerings if it["name"] == step["peering"])
            is_plain = bytes.fromhex(peering["opening"]) == default_opening(peering) if "opening" in peering else True
            if not settled or not is_plain or any(it["do"] == "raw" and it["peering"] == peering["name"] for it in steps):
                return False
    return True


def results(lab):
    """The lines of the grafts of a sure laboratory: each of the router where the session is by the grafts before, its target, and its result."""
    places = {it["name"]: it["at"] for it in lab.get("peering", [])}
    policies = {it["name"]: {policy["name"] for policy in it.get("policy", [])} for it in lab["router"]}
    grafts = [step for step in lab.get("step", []) if step["do"] == "graft"]
    for number, step in enumerate(grafts, 1):
        name, target = step["peering"], step["to"]
        place = places[name]
        peering = next(it for it in lab["peering"] if it["name"] == name)
        missing = [it for it in (peering.get("import"), peering.get("export")) if it is not None and it not in policies[target]]
        if target == place:
            result = "refused SameRouter"
        elif missing:
            result = f"refused PolicyMissing({missing[0]})"
        else:
            result = "accepted"
            places[name] = target
        yield f"graft {number} {name} {place} {target} {result}"


def results_differ(program, text, lab):
    """Whether a settled run has other results than the script says."""
    for workers in ("1", "3"):
        ran = subprocess.run([program, "run", "--workers", workers], input=text.encode(), capture_output=True, timeout=SECONDS)
        told = [line for line in ran.stdout.decode().splitlines() if line.startswith("graft ")]
        if ran.returncode == 0 and told != list(results(lab)):
            return True
    return False


def changed(choose, text):
    """A laboratory with one thing or two changed."""
    for _ in range(choose.randint(0, 2)):
        kind = choose.randrange(7)
        if kind == 0:
            text = re.sub(r"med = \d+", f"med = {choose.randrange(20)}", text, count=choose.randint(0, 2))
        elif kind == 1:
            text = re.sub(r"(remote_as = \d+)", rf"\1\nhome_hold = {choose.choice([0, 9, 90])}", text, count=1) if "home_hold" not in text else text
        elif kind == 2:
            text = re.sub(r"sessions = \d+", "sessions = 2" if text.count("[[peering]]") == 2 else "sessions = 8", text, count=1)
        elif kind == 3:
            text = text.replace("pref = 200", f"med = {choose.randrange(12)}", choose.randint(0, 3))
        elif kind == 6:
            text = text.replace('name = "in"', 'name = "other"', 1)
        elif kind == 4:
            text = text.replace('[[step]]\ndo = "settle"', "", 1)
        else:
            text = text.replace("prepend = 2", "prepend = 1", 1).replace("deny = true", 'origin = "egp"\ndeny = true', 1)
    return text


def made(seed, number):
    """A laboratory: every third has hostile remotes."""
    choose = random.Random(seed * 1_000_003 + number)
    return hostile_remotes.Lab(seed, number).text() if number % 3 == 0 else changed(choose, one_answer.even(choose))


def main():
    parser = argparse.ArgumentParser(description=__doc__.splitlines()[0])
    parser.add_argument("--count", type=int, default=1000)
    parser.add_argument("--seed", type=int, default=1)
    parser.add_argument("--runs", action="store_true")
    parser.add_argument("program")
    words = parser.parse_args()
    counts, wrong = collections.Counter(), 0
    for number in range(words.count):
        text = made(words.seed, number)
        ran = subprocess.run([words.program, "check"], input=text.encode(), capture_output=True, timeout=SECONDS)
        lines = ran.stdout.decode().splitlines()
        try:
            lab = tomllib.loads(text)
            wanted = " ".join(f"{name} {'yes' if holds else 'no'}" for name, holds in (("even", is_even(lab)), ("sure", is_sure(lab))))
        except (Unread, tomllib.TOMLDecodeError):
            counts["left out"] += 1
            continue
        told = lines[1] if ran.returncode == 0 and len(lines) == 2 else f"status {ran.returncode} {lines[:1]}"
        counts[told if ran.returncode == 0 else "no input"] += 1
        is_wrong = told != wanted and ran.returncode != 2
        if words.runs and not is_wrong and ran.returncode == 0 and wanted.endswith("sure yes"):
            counts["sure ones that were run"] += 1
            is_wrong = results_differ(words.program, text, lab)
        if is_wrong:
            wrong += 1
            pathlib.Path(f"checked.{number}").write_text(text)
            print(f"WRONG: laboratory {number}: {told}, for {wanted}")
    print(f"{words.count} laboratories: {', '.join(f'{name}: {count}' for name, count in sorted(counts.items()))}; {wrong} wrong")
    return 1 if wrong else 0


if __name__ == "__main__":
    sys.exit(main())
