#!/usr/bin/env python3
"""Writes a laboratory in which nothing but timers runs: many small rounds.

    silent_lab.py [PEERINGS]

It has 4 routers and PEERINGS peerings, 32 where no other number is named. No remote announces anything. Both sides of each session offer a
hold time of 90 s, so each says a KEEPALIVE every 30 rounds, and 20 settle steps last 200 rounds each.
"""
import sys

from scaled_labs import ROUTERS, table

PEERINGS, HOLD, SETTLES, ROUNDS = 32, 90, 20, 200


def text(peerings=PEERINGS):
    yield "home_as = 64600\n\n"
    for r in range(ROUTERS):
        yield table("router", f'name = "r{r}"', f'id = "10.255.0.{r + 1}"', f"sessions = {peerings}")
    for j in range(peerings):
        yield table(
            "peering",
            f'name = "p{j}"',
            f'at = "r{j % ROUTERS}"',
            f"remote_as = {64601 + j}",
            f'remote_address = "192.0.2.{2 * j + 1}"',
            f'local_address = "192.0.2.{2 * j + 2}"',
            f"home_hold = {HOLD}",
            f"hold = {HOLD}",
            "beats = true",
        )
    for _ in range(SETTLES):
        yield table("step", 'do = "settle"', f"least = {ROUNDS}")


def main():
    if len(sys.argv) > 2 or not all(word.isdigit() and int(word) <= PEERINGS for word in sys.argv[1:]):
        sys.exit(__doc__)
    sys.stdout.write("".join(text(*map(int, sys.argv[1:]))))


if __name__ == "__main__":
    main()
