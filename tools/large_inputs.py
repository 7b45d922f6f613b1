#!/usr/bin/env python3
"""Writes large inputs into a folder, whose reading is to be measured.

    tools/large_inputs.py FOLDER

    steps-N.toml     N announce steps of 54 prefixes each, on four peerings, with the same 4,096 prefixes all through: 4,096 steps are close to 4 MiB
    faults-N.toml    N faults, and one step of 200 prefixes
"""
import pathlib
import random
import sys

HEAD = """home_as = 65000

[[router]]
name = "a"
id = "10.255.0.1"
sessions = 4
"""


def peering(number):
    return f"""
[[peering]]
name = "c{number}"
at = "a"
remote_as = {65001 + number}
remote_address = "192.0.2.{2 * number + 1}"
local_address = "192.0.2.{2 * number + 2}"
"""


def step(number, prefixes):
    listed = ", ".join(f'"{prefix}"' for prefix in prefixes)
    return f"""
[[step]]
do = "announce"
peering = "c{number % 4}"
prefixes = [{listed}]
path = [{65001 + number % 4}]
"""


def fault(number):
    return f"""
[[fault]]
peering = "c{number % 4}"
way = "{'home' if number % 2 else 'remote'}"
segment = {number // 4 + 1}
kind = "repeat"
after = {number % 6 + 1}
"""


def steps_input(count):
    choose = random.Random(1)
    steps = (step(number, [f"10.{choose.randrange(16)}.{choose.randrange(256)}.0/24" for _ in range(54)]) for number in range(count))
    return HEAD + "".join(map(peering, range(4))) + "".join(steps)


def faults_input(count):
    faults = "".join(map(fault, range(count)))
    return HEAD + "".join(map(peering, range(4))) + faults + step(0, [f"10.0.{place}.0/24" for place in range(200)])


def main():
    folder = pathlib.Path(sys.argv[1])
    for count in (512, 1024, 2048, 4096):
        (folder / f"steps-{count}.toml").write_text(steps_input(count))
    for count in (256, 512, 1024):
        (folder / f"faults-{count}.toml").write_text(faults_input(count))


if len(sys.argv) != 2:
    sys.exit(__doc__)
main()
