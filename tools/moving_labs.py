#!/usr/bin/env python3
"""Writes a laboratory of 8 routers and 32 peerings in which, once all is settled, every peering moves in one group.

    moving_labs.py PREFIXES

Each remote announces its share of the prefixes, at most 200 in a step, and each peering moves to the next router.
"""
import sys

from scaled_labs import MOST, table

ROUTERS, PEERINGS = 8, 32


def announce(peering, prefixes):
    for first in range(0, len(prefixes), MOST):
        names = ", ".join(f'"10.{i // 256}.{i % 256}.0/24"' for i in prefixes[first : first + MOST])
        yield table("step", 'do = "announce"', f'peering = "p{peering}"', f"prefixes = [{names}]", f"path = [{64601 + peering}]")


def text(count):
    yield "home_as = 64600\n\n"
    for r in range(ROUTERS):
        yield table("router", f'name = "r{r}"', f'id = "10.255.0.{r + 1}"', f"sessions = {PEERINGS}")
    for j in range(PEERINGS):
        yield table(
            "peering",
            f'name = "p{j}"',
            f'at = "r{j % ROUTERS}"',
            f"remote_as = {64601 + j}",
            f'remote_address = "192.0.2.{2 * j + 1}"',
            f'local_address = "192.0.2.{2 * j + 2}"',
        )
    for j in range(PEERINGS):
        yield from announce(j, range(j, count, PEERINGS))
    yield table("step", 'do = "settle"')
    for j in range(PEERINGS):
        yield table("step", 'do = "graft"', f'peering = "p{j}"', f'to = "r{(j + 1) % ROUTERS}"')
    yield table("step", 'do = "settle"')


def main():
    if len(sys.argv) != 2 or not sys.argv[1].isdigit():
        sys.exit(__doc__)
    sys.stdout.write("".join(text(int(sys.argv[1]))))


if __name__ == "__main__":
    main()
