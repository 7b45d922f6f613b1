#!/usr/bin/env python3
"""Writes a laboratory of the form that `graftlab make` writes, with another number of prefixes.

    scaled_labs.py PREFIXES [SEED]

It has 4 routers, 12 peerings behind links that lose and repeat, and a script in which each remote announces its share of the
prefixes, and then 20 moves while twelve of the remotes announce a second share by a longer path. Where a share has more than 150
prefixes it is announced by several steps, since a step holds no more than 200. With 2,000 prefixes and shares in one step this is
the text of `graftlab make SEED`.
"""
import sys

ROUTERS, PEERINGS, MOVES, MOST = 4, 12, 20, 200


def table(kind, *lines):
    return "\n".join([f"[[{kind}]]", *lines, "", ""])


def announce(peering, prefixes, path):
    most = MOST if len(prefixes) <= MOST else 150
    for first in range(0, len(prefixes), most):
        names = ", ".join(f'"10.{i // 256}.{i % 256}.0/24"' for i in prefixes[first : first + most])
        yield table("step", 'do = "announce"', f'peering = "p{peering}"', f"prefixes = [{names}]", f"path = {path}")


def share(count, shift, peering):
    return [i for i in range(count) if (i + shift) % PEERINGS == peering]


def text(count, seed):
    yield "home_as = 64600\n\n"
    for r in range(ROUTERS):
        yield table("router", f'name = "r{r}"', f'id = "10.255.0.{r + 1}"', "sessions = 12")
    for j in range(PEERINGS):
        number = 4294960000 + 600 * j
        yield table(
            "peering",
            f'name = "p{j}"',
            f'at = "r{j % ROUTERS}"',
            f"remote_as = {64601 + j}",
            f'remote_address = "192.0.2.{2 * j + 1}"',
            f'local_address = "192.0.2.{2 * j + 2}"',
            f"home_seq = {number}",
            f"remote_seq = {number}",
        )
    for j in range(PEERINGS):
        yield table("fault", f'peering = "p{j}"', 'way = "home"', "segment = 2", 'kind = "lose"')
        yield table("fault", f'peering = "p{j}"', 'way = "remote"', "segment = 3", 'kind = "repeat"', "after = 2")
    for j in range(PEERINGS):
        yield from announce(j, share(count, seed, j), f"[{64601 + j}]")
    yield table("step", 'do = "settle"')
    places = [j % ROUTERS for j in range(PEERINGS)]
    for g in range(MOVES):
        q = (5 * g + seed) % PEERINGS
        places[q] = (places[q] + 1) % ROUTERS
        yield table("step", 'do = "graft"', f'peering = "p{q}"', f'to = "r{places[q]}"')
        if g < PEERINGS:
            yield from announce(g, share(count, seed + 5, g), f"[{64601 + g}, 64700]")
    yield table("step", 'do = "settle"')


def main():
    if not 2 <= len(sys.argv) <= 3 or not all(word.isdigit() for word in sys.argv[1:]):
        sys.exit(__doc__)
    seed = int(sys.argv[2]) if len(sys.argv) == 3 else 7
    sys.stdout.write("".join(text(int(sys.argv[1]), seed)))


if __name__ == "__main__":
    main()
