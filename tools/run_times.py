#!/usr/bin/env python3
"""Measures wall time, processor time and memory of whole runs by different numbers of workers, for docs/MEASURED.md.

    run_times.py PROGRAM [--runs N] [--prefixes 500,1000,2000,4000] [--workers 1,2,4] [--moving 4096]

PROGRAM run is done on the laboratories of scaled_labs.py with these numbers of prefixes, on that of silent_lab.py, in which nothing but
32 timers runs, and on that of moving_labs.py with --moving prefixes. The runs take turns: each laboratory with each number of workers, and
then all of them again, N times (40 where no other number is named). No run is bound to a processor.

A table in Markdown is printed: of wall time the least, the median and what nine tenths of the runs took at most, of processor time the
least and the median, and the most memory that a run had; and least, medians and memory as shares of those with the first number of workers.
Lines behind it say below what memory can't be told, since a run begins with what this script has, and whether something else ran on the
machine meanwhile.
"""
import argparse
import math
import statistics
import sys

import measuring
import moving_labs
import scaled_labs
import silent_lab

HEADS = ["Laboratory", "Workers", "Wall ms: least, median, nine tenths", "Beside {}: least, median", "Processor ms: least, median",
         "Beside {}: least, median", "Most MB", "Beside {}"]


def numbers(words):
    return [int(word) for word in words.split(",")]


def laboratories(options):
    """The name and the text of each."""
    for count in options.prefixes:
        yield f"{count:,} prefixes", "".join(scaled_labs.text(count, 7)).encode()
    yield f"{silent_lab.PEERINGS} timers, {silent_lab.SETTLES} settles of {silent_lab.ROUNDS} rounds", "".join(silent_lab.text()).encode()
    yield f"{moving_labs.PEERINGS} peerings move at once, {options.moving:,} prefixes", "".join(moving_labs.text(options.moving)).encode()


def nine_tenths(values):
    """What nine tenths of the values don't exceed."""
    return sorted(values)[math.ceil(0.9 * len(values)) - 1]


def measured(options, texts):
    """All runs, by the laboratory and the number of workers."""
    runs = {(name, workers): [] for name in texts for workers in options.workers}
    for number in range(options.runs):
        print(f"{number + 1} of {options.runs}", file=sys.stderr)
        for name, workers in runs:
            runs[name, workers].append(measuring.graftlab(options.program, texts[name], workers))
    return runs


def row(name, workers, runs, base):
    """The cells of a row; base are the runs with the first number of workers."""
    wall, processor, memory = zip(*runs)
    base_wall, base_processor, base_memory = zip(*base)
    middle = statistics.median
    return [
        name,
        str(workers),
        f"{1000 * min(wall):.0f}, {1000 * middle(wall):.0f}, {1000 * nine_tenths(wall):.0f}",
        f"{min(wall) / min(base_wall):.2f}, {middle(wall) / middle(base_wall):.2f}",
        f"{1000 * min(processor):.0f}, {1000 * middle(processor):.0f}",
        f"{min(processor) / min(base_processor):.2f}, {middle(processor) / middle(base_processor):.2f}",
        f"{max(memory):.0f}",
        f"{max(memory) / max(base_memory):.2f}",
    ]


def printed(cells):
    print("| " + " | ".join(cells) + " |")


def main():
    words = argparse.ArgumentParser(description=__doc__, formatter_class=argparse.RawDescriptionHelpFormatter)
    words.add_argument("--runs", type=int, default=40)
    words.add_argument("--prefixes", type=numbers, default=[500, 1000, 2000, 4000])
    words.add_argument("--workers", type=numbers, default=[1, 2, 4])
    words.add_argument("--moving", type=int, default=4096)
    words.add_argument("program")
    options = words.parse_args()
    texts = dict(laboratories(options))
    meanwhile = measuring.Meanwhile()
    runs = measured(options, texts)
    first = options.workers[0]
    printed(head.format("one worker" if first == 1 else f"{first} workers") for head in HEADS)
    printed("---" for _ in HEADS)
    for (name, workers), taken in runs.items():
        printed(row(name, workers, taken, runs[name, first]))
    floor = measuring.graftlab("true", b"", 1).memory
    print(f"\n{options.runs} runs of each, by turns. Memory below {floor:.0f} MB can't be told.\n{meanwhile.told()}")


if __name__ == "__main__":
    main()
