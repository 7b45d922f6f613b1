#!/usr/bin/env python3
"""Damages inputs, and counts how a program answers them.

    tools/damaged_inputs.py [--count N] [--seed N] PROGRAM WORD.. -- FILE..

Each input is one of the files with one to three pieces of damage: its end is cut off; a piece is cut out, or repeated; a bit is
flipped; a letter or digit is another; a line is repeated elsewhere. The seed decides which, so a run can be repeated. The program
gets the input on its standard input, and is to end within 20 seconds with status 0 or 2, whole lines, one of them under status 2,
and nothing on standard error. An input for which it doesn't is kept in the current folder as damaged.N, and the status is 1 then.
"""
import argparse
import collections
import concurrent.futures
import os
import pathlib
import random
import subprocess
import sys

SECONDS = 20


def cut_end(text, at, end, choose):
    del text[at:]


def cut_piece(text, at, end, choose):
    del text[at:end]


def repeat_piece(text, at, end, choose):
    text[at:at] = text[at:end]


def flip_bit(text, at, end, choose):
    text[at] ^= 1 << choose.randrange(8)


def change_letter(text, at, end, choose):
    places = [place for place in range(at, end) if chr(text[place]).isalnum()]
    if places:
        text[choose.choice(places)] = choose.choice(b'0123456789abz-./"')


def repeat_line(text, at, end, choose):
    lines = bytes(text).split(b"\n")
    lines.insert(choose.randrange(len(lines) + 1), choose.choice(lines))
    text[:] = b"\n".join(lines)


KINDS = [cut_end, cut_piece, repeat_piece, flip_bit, change_letter, repeat_line]


def damaged(text, choose):
    text = bytearray(text)
    for _ in range(choose.choice((1, 1, 1, 2, 3))):
        if text:
            at = choose.randrange(len(text))
            end = min(len(text), at + choose.choice((1, 2, 5, 20, 100)))
            choose.choice(KINDS)(text, at, end, choose)
    return bytes(text)


def answer(command, text):
    """How the command answers: its status and the first words of what it writes; or what is wrong."""
    try:
        run = subprocess.run(command, input=text, stdout=subprocess.PIPE, stderr=subprocess.PIPE, timeout=SECONDS)
    except subprocess.TimeoutExpired:
        return True, f"no answer in {SECONDS} seconds"
    written = run.stdout.decode("utf-8", "backslashreplace")
    words = written.split("\n")[0].split(" ")
    told = " ".join(words[: 3 if written.startswith("bad input: ") else 1])
    lines = written.count("\n")
    sound = run.returncode in (0, 2) and written.endswith("\n") and not run.stderr and (lines == 1 or run.returncode == 0)
    return not sound, f"status {run.returncode}, {told}" + ("" if sound else f", {lines} lines, {run.stderr[:80]!r}")


def main():
    options = argparse.ArgumentParser(usage=__doc__)
    options.add_argument("--count", type=int, default=20000)
    options.add_argument("--seed", type=int, default=7)
    options.add_argument("command", nargs=argparse.REMAINDER)
    words = sys.argv[1:]
    files = words[words.index("--") + 1 :]
    given = options.parse_args(words[: words.index("--")])
    choose = random.Random(given.seed)
    texts = [pathlib.Path(name).read_bytes() for name in files]
    inputs = [damaged(choose.choice(texts), choose) for _ in range(given.count)]
    counts = collections.Counter()
    wrong = 0
    with concurrent.futures.ThreadPoolExecutor(os.cpu_count()) as workers:
        for place, (is_wrong, told) in enumerate(workers.map(lambda text: answer(given.command, text), inputs)):
            counts[told] += 1
            if is_wrong:
                wrong += 1
                pathlib.Path(f"damaged.{place}").write_bytes(inputs[place])
    for told, count in counts.most_common():
        print(count, told)
    print(f"{len(inputs)} inputs, {len(set(inputs))} of them different, {wrong} answered as they are not to be")
    return 1 if wrong else 0


sys.exit(main())
