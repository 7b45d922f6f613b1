#!/usr/bin/env python3
"""Measures what it costs to follow packets at the end of a run, and walks each of them again.

    trace_cost.py [--prefixes N] [--addresses N] [--runs N] [--instructions] PROGRAM

The laboratory is that of moving_labs.py: 8 routers, 32 peerings, and each remote announces its share of the prefixes (4,096 where
no other number is named). PROGRAM run is done on it by one worker without addresses to follow, with one, and with all of them
(64 where no other number is named). For each the least time of the runs is printed, the most memory that a run had (no less than
this script has itself), and with --instructions what valgrind counts. The first address costs the tables in which packets are
followed; each further one costs a walk and a line for each router.

Each line `trace` of a report is compared with a walk by the lines `best` of the same report: at each router the longest prefix that
covers the address. A line that says something else is printed, and then the status is 1.
"""
import argparse
import ipaddress
import os
import re
import subprocess
import sys
import tempfile
import time

import moving_labs


def addresses_in(prefixes, count):
    """Addresses of prefixes that lie as far apart as can be; every eighth is of a prefix that nobody has."""
    for n in range(count):
        place = n * prefixes // count
        first = 172 if n % 8 == 7 else 10
        yield f"{first}.{place // 256}.{place % 256}.{n + 1}"


def lab(prefixes, addresses):
    text = "".join(moving_labs.text(prefixes))
    home, rest = text.split("\n", 1)
    names = ", ".join(f'"{address}"' for address in addresses)
    return f"{home}\ntrace = [{names}]\n{rest}".encode()


def run(command, text):
    """The report of a run, the seconds that it took, and the most memory that it had, in KiB."""
    with tempfile.TemporaryFile() as given, tempfile.TemporaryFile() as written:
        given.write(text)
        given.seek(0)
        begun = time.monotonic()
        process = subprocess.Popen(command, stdin=given, stdout=written)
        _, status, usage = os.wait4(process.pid, 0)
        seconds = time.monotonic() - begun
        process.returncode = os.waitstatus_to_exitcode(status)
        if process.returncode != 0:
            sys.exit(f"{' '.join(command)}: status {process.returncode}")
        written.seek(0)
        return written.read().decode(), seconds, usage.ru_maxrss


def instructions(command, text):
    with tempfile.TemporaryDirectory() as folder:
        counting = ["valgrind", "--tool=callgrind", f"--callgrind-out-file={folder}/out", *command]
        told = subprocess.run(counting, input=text, capture_output=True, check=True).stderr.decode()
    return int(re.search(r"Collected : (\d+)", told).group(1))


def tables_of(report):
    """The routers in their order, and each router's best routes: where the route to a network comes from."""
    tables = {}
    for line in report.splitlines():
        words = line.split(" ")
        if words[0] == "router":
            tables[words[1]] = {}
            here = tables[words[1]]
        elif words[0] == "best":
            here[ipaddress.ip_network(words[1])] = words[2:4] if words[2] != "own" else ["own"]
    return tables


def longest(table, address):
    for length in range(32, -1, -1):
        prefix = ipaddress.ip_network(f"{address}/{length}", strict=False)
        if prefix in table:
            return prefix
    return None


def walk(tables, begin, address):
    """How a walk ends, as the report says it."""
    met, at = set(), begin
    while at not in met:
        met.add(at)
        prefix = longest(tables[at], address)
        if prefix is None:
            return f"none {at}"
        kind, *name = tables[at][prefix]
        if kind == "own":
            return f"local {at} {prefix}"
        if kind == "peering":
            return f"leaves {at} {name[0]} {prefix}"
        at = name[0]
    return f"loop {at}"


def wrong_lines(report, addresses):
    tables = tables_of(report)
    told = [line for line in report.splitlines() if line.startswith("trace ")]
    wanted = [f"trace {a} from {r} {walk(tables, r, a)}" for a in addresses for r in tables]
    if len(told) != len(wanted):
        yield f"{len(told)} lines where {len(wanted)} are wanted"
    for line, other in zip(told, wanted):
        if line != other:
            yield f"{line}\n  wanted: {other}"


def measured(options, count):
    addresses = list(addresses_in(options.prefixes, count))
    text = lab(options.prefixes, addresses)
    command = [options.program, "run", "--workers", "1"]
    ends = [run(command, text) for _ in range(options.runs)]
    wrong = list(wrong_lines(ends[0][0], addresses))
    row = [count, f"{min(seconds for _, seconds, _ in ends):.2f}", max(memory for _, _, memory in ends)]
    if options.instructions:
        row.append(instructions(command, text))
    return row, wrong


def main():
    words = argparse.ArgumentParser(description=__doc__, formatter_class=argparse.RawDescriptionHelpFormatter)
    words.add_argument("--prefixes", type=int, default=4096)
    words.add_argument("--addresses", type=int, default=64)
    words.add_argument("--runs", type=int, default=3)
    words.add_argument("--instructions", action="store_true")
    words.add_argument("program")
    options = words.parse_args()
    print("addresses seconds KiB" + (" instructions" if options.instructions else ""))
    bad = False
    for count in (0, 1, options.addresses):
        row, wrong = measured(options, count)
        print(*row, flush=True)
        for line in wrong:
            print(line)
            bad = True
    sys.exit(1 if bad else 0)


if __name__ == "__main__":
    main()
