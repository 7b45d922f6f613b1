#!/usr/bin/env python3
"""Runs laboratories that have one answer with 1, 2, 4 and 8 workers, and looks whether their reports are equal.

    tools/one_answer.py [--count N] [--runs N] [--seed N] [--premises] [--write FOLDER] PROGRAM

N generated laboratories, 30 by default, have no timer, and of one prefix all routes of one neighbour AS have one MED. Every router has
room for all peerings, no graft stands in the first group, and no remote says but what BGP allows, so that the results of grafts are
certain too. They have up to 5 routers and 8 peerings, import policies, links that lose, repeat, hold back and stray, and two to four
groups with announcements, withdrawals, and grafts or a step that empties a router. PROGRAM run is done on each with each number of
workers, 10 times by default. Each run is to settle, with status 0, and all runs of a laboratory are to print one report. A laboratory of
which that doesn't hold is kept in the current folder as answers.N, and the status is 1 then.

With --premises four laboratories are run in place of these, each of which lacks one premise: MEDs that differ, a hold time, a graft in
the first group, and room for one session where two go. It prints how many different reports there were, and how often each came. Two
reports may come of each, or one; nothing is failed. With --write each laboratory is written into a folder and nothing is run.
"""
import argparse
import collections
import pathlib
import random
import subprocess
import sys

WORKERS = (1, 2, 4, 8)
SECONDS = 60
ROUTERS = "abcde"


def router(name, sessions, policies=()):
    number = ROUTERS.index(name) + 1
    rules = "".join(f'\n[[router.policy]]\nname = "{policy}"\n' + "".join(f"[[router.policy.rule]]\n{rule}\n" for rule in made)
                    for policy, made in policies)
    return f'[[router]]\nname = "{name}"\nid = "10.255.0.{number}"\nsessions = {sessions}{rules}'


def peering(number, at, remote_as, more=""):
    return (
        f'[[peering]]\nname = "p{number}"\nat = "{at}"\nremote_as = {remote_as}\n'
        f'remote_address = "192.0.2.{4 * number + 1}"\nlocal_address = "192.0.2.{4 * number + 2}"{more}'
    )


def announce(number, prefixes, more=""):
    return f'[[step]]\ndo = "announce"\npeering = "p{number}"\nprefixes = [{", ".join(repr(prefix) for prefix in prefixes)}]{more}'.replace("'", '"')


def graft(number, target):
    return f'[[step]]\ndo = "graft"\npeering = "p{number}"\nto = "{target}"'


SETTLE = '[[step]]\ndo = "settle"'


def even(choose):
    """A laboratory that is even and sure."""
    routers = ROUTERS[: choose.randint(2, 5)]
    count = choose.randint(2, 8)
    ases = [65001 + choose.randrange(3) for _ in range(count)]
    prefixes = [f"10.{number}.0.0/16" for number in range(choose.randint(1, 6))]
    # One MED for each prefix and AS, and one name of a policy with the same rules at each router.
    meds = {(prefix, number): choose.choice([None, 0, 5, 10]) for prefix in prefixes for number in set(ases)}
    rules = [f'prefix = "{prefix}"\n' + choose.choice(["deny = true", "pref = 200", "prepend = 2"]) for prefix in prefixes if choose.random() < 0.4]
    text = ["home_as = 65000"]
    text += [router(name, count, [("in", rules)]) for name in routers]
    pairs = [(one, other) for one in routers for other in routers if one != other and choose.random() < 0.5]
    text += [f'[[cost]]\nfrom = "{one}"\nto = "{other}"\ncost = {choose.randint(0, 9)}' for one, other in pairs]
    text += [peering(number, choose.choice(routers), ases[number], '\nimport = "in"' if choose.random() < 0.4 else "") for number in range(count)]
    faults = {(choose.randrange(count), choose.choice(["home", "remote"]), choose.randint(1, 12)) for _ in range(choose.randrange(12))}
    for number, way, segment in sorted(faults):
        kind = choose.choice(["lose", "repeat", "hold"] + ["stray"] * (way == "home"))
        after = "" if kind == "lose" else f"\nafter = {choose.randint(1, 6)}"
        text.append(f'[[fault]]\npeering = "p{number}"\nway = "{way}"\nsegment = {segment}\nkind = "{kind}"{after}')
    for group in range(choose.randint(2, 4)):
        for _ in range(choose.randint(2, 10)):
            number, prefix = choose.randrange(count), choose.choice(prefixes)
            if choose.random() < 0.2:
                text.append(f'[[step]]\ndo = "withdraw"\npeering = "p{number}"\nprefixes = ["{prefix}"]')
                continue
            med = meds[prefix, ases[number]]
            path = [ases[number]] + [64000 + choose.randrange(4) for _ in range(choose.randrange(3))]
            text.append(announce(number, [prefix], f"\npath = {path}" + ("" if med is None else f"\nmed = {med}")))
        if group and choose.random() < 0.4:
            text.append(f'[[step]]\ndo = "evacuate"\nrouter = "{choose.choice(routers)}"')
        elif group:
            text += [graft(choose.randrange(count), choose.choice(routers)) for _ in range(choose.randint(1, 4))]
        text.append(SETTLE)
    return "\n\n".join(text) + "\n"


def premises():
    """Laboratories that each lack one premise, by its name: MEDs that cross, a remote that is silent longer than the hold time of 9, a graft
    beside the OPEN, and one place for two sessions."""
    prefix = ["10.0.0.0/8"]
    med = [announce(number, prefix, f"\nmed = {value}") for number, value in enumerate([0, 1, 1, 0])]
    ids = [f'\nremote_id = "198.51.100.{number}"' for number in (2, 1, 3, 4)]
    base = ["home_as = 65000"]
    return {
        "even MEDs": base + [router("a", 4), router("b", 4)]
        + [peering(number, "aabb"[number], 65001 + number % 2, ids[number]) for number in range(4)] + med,
        "no timer": base + [router("a", 4), router("b", 4), peering(0, "a", 65001, "\nhome_hold = 9\nhold = 9\nbeats = false"), peering(1, "b", 65002)]
        + [announce(0, ["10.1.0.0/16"]), announce(1, ["10.2.0.0/16"])],
        "no graft in the first group": base + [router("a", 4), router("b", 4), peering(0, "a", 65001), announce(0, prefix), graft(0, "b")],
        "room": base + [router("a", 4), router("b", 4), router("c", 1), peering(0, "a", 65001), peering(1, "b", 65002), SETTLE]
        + [announce(0, ["10.1.0.0/16"]), announce(1, ["10.2.0.0/16"]), graft(0, "c"), graft(1, "c")],
    }


def report(program, text, workers):
    """The report of a run, or what is wrong with the run."""
    ran = subprocess.run([program, "run", "--workers", str(workers)], input=text.encode(), capture_output=True, timeout=SECONDS)
    if ran.returncode != 0 or ran.stderr:
        return f"status {ran.returncode}: {ran.stdout[:200].decode()} {ran.stderr[:200].decode()}"
    return ran.stdout.decode()


def reports(program, text, runs):
    return collections.Counter(report(program, text, workers) for workers in WORKERS for _ in range(runs))


def main():
    parser = argparse.ArgumentParser(description=__doc__.splitlines()[0])
    parser.add_argument("program")
    parser.add_argument("--count", type=int, default=30)
    parser.add_argument("--runs", type=int, default=10)
    parser.add_argument("--seed", type=int, default=1)
    parser.add_argument("--premises", action="store_true")
    parser.add_argument("--write", type=pathlib.Path)
    words = parser.parse_args()
    if words.premises:
        labs = {name: "\n\n".join(parts) + "\n" for name, parts in premises().items()}
    else:
        labs = {str(number): even(random.Random(words.seed * 1_000_003 + number)) for number in range(1, words.count + 1)}
    wrong = 0
    for name, text in labs.items():
        if words.write:
            (words.write / f"{name.replace(' ', '-')}.toml").write_text(text)
            continue
        found = reports(words.program, text, words.runs)
        if words.premises:
            counts = ", ".join(str(count) for _, count in found.most_common())
            print(f"without {name}: {len(found)} reports, {counts} of {sum(found.values())} runs")
        elif len(found) != 1 or not next(iter(found)).startswith("result settled\n"):
            wrong += 1
            pathlib.Path(f"answers.{name}").write_text(text)
            print(f"laboratory {name}: {len(found)} reports; the first begins {next(iter(found))[:80]!r}", file=sys.stderr)
    if not words.premises and not words.write:
        grafts = sum(text.count('do = "graft"') + text.count('do = "evacuate"') for text in labs.values())
        print(f"{len(labs)} laboratories with {grafts} steps that move sessions, {len(WORKERS) * words.runs} runs each: {wrong} wrong")
    sys.exit(1 if wrong else 0)


if __name__ == "__main__":
    main()
