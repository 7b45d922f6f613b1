#!/usr/bin/env python3
"""Refuses each allocation, read and write of a program in turn, and looks at how it ends.

    tools/refused_memory.py [--kinds KIND,..] [--most N] PROGRAM WORD.. -- FILE..

Each file is an input of the program, which gets it on its standard input. The program is run once as it is, whose status and text
are the input's own, and then once for each call that it made there, with that call refused:

    one      an allocation is refused, and those behind it aren't
    all      an allocation is refused, and each behind it
    read     a read of standard input fails; reads and writes move at most 16 bytes
    write    a write to standard output fails; reads and writes move at most 16 bytes
    short    a read or a write moves one byte
    thread   a thread isn't started

A run whose memory is refused is to end with the input's own status and text, or with status 6 and nothing written. One whose read
fails is to end with status 4 and nothing written. One whose write fails is to end with status 5, and the bytes of the writes before
it are the first part of the input's own text. One whose read or write is short, or whose thread isn't started, is to end with the input's own
status and text. No run may write to standard error or take longer than 20 seconds. A run for which this doesn't hold is printed, and then the status is 1.

It needs a C compiler, by the name cc, for refusing_calls.c. Where threads share the work, which allocation is the Nth differs from
run to run, so with --workers 1 each is refused in turn, and with more some.
"""
import argparse
import collections
import os
import pathlib
import subprocess
import sys
import tempfile

SECONDS = 20
STEP = 16
NO_MEMORY, READ_FAILED, WRITE_FAILED = 6, 4, 5
KINDS = ("one", "all", "read", "write", "short", "thread")
End = collections.namedtuple("End", "status text said")
Calls = collections.namedtuple("Calls", "allocations reads writes threads")


class Program:
    """A program with the library that refuses its calls."""

    def __init__(self, command, library):
        self.command = command
        self.library = library

    def run(self, text, **refusals):
        """How it ends on a text, and how many calls it made."""
        heard, told = os.pipe()
        names = {name.upper(): str(number) for name, number in refusals.items()}
        with open(heard, "rb") as counts:
            try:
                run = subprocess.run(
                    self.command,
                    input=text,
                    capture_output=True,
                    timeout=SECONDS,
                    pass_fds=[told],
                    env={"LD_PRELOAD": self.library, "COUNTS": str(told), **names},
                )
            except subprocess.TimeoutExpired:
                return End(None, b"", b"no end"), Calls(0, 0, 0, 0)
            finally:
                os.close(told)
            numbers = counts.read().split()
        calls = Calls(*map(int, numbers)) if numbers else Calls(0, 0, 0, 0)
        return End(run.returncode, run.stdout, run.stderr), calls


def plans(kind, program, text):
    """The refusals of a kind for an input: the names of each one's variables with their numbers."""
    if kind in ("one", "all"):
        calls = program.run(text)[1].allocations
        name = "refuse_allocation" if kind == "one" else "refuse_from"
        return [{name: number} for number in range(1, calls + 1)]
    if kind == "short":
        calls = program.run(text)[1]
        reads = [{"short_read": number} for number in range(1, calls.reads + 1)]
        return reads + [{"short_write": number} for number in range(1, calls.writes + 1)]
    if kind == "thread":
        calls = program.run(text)[1].threads
        return [{"refuse_thread": number} for number in range(1, calls + 1)]
    calls = program.run(text, step=STEP)[1]
    count = calls.reads if kind == "read" else calls.writes
    return [{f"fail_{kind}": number, "step": STEP} for number in range(1, count + 1)]


def is_sound(kind, plan, end, own):
    """Whether a run ended as one with such a refusal is to."""
    if end.said:
        return False
    if kind == "read":
        return end.status == READ_FAILED and not end.text
    if kind == "write":
        return end.status == WRITE_FAILED and end.text == own.text[: STEP * (plan["fail_write"] - 1)]
    if kind in ("short", "thread"):
        return end == own
    return end == own or (end.status == NO_MEMORY and not end.text)


def try_kind(kind, program, name, text, own, most):
    """Runs an input with each refusal of a kind, tells what is wrong and how the runs ended, and counts both."""
    counts = collections.Counter()
    wrong = 0
    for plan in plans(kind, program, text)[:most]:
        end, _ = program.run(text, **plan)
        counts[end.status] += 1
        if not is_sound(kind, plan, end, own):
            wrong += 1
            print(f"wrong: {name} {plan}: status {end.status}, {len(end.text)} bytes, {end.said[:80]!r}")
    told = ", ".join(f"status {status}: {count}" for status, count in sorted(counts.items(), key=str))
    print(f"{name} {kind}: {sum(counts.values())} runs; {told or 'none'}; {wrong} wrong", flush=True)
    return sum(counts.values()), wrong


def try_input(program, name, kinds, most):
    """Runs an input with each refusal of each kind, and counts the runs and those that were wrong."""
    text = pathlib.Path(name).read_bytes()
    own, calls = program.run(text)
    made = f"{calls.allocations} allocations, {calls.reads} reads, {calls.writes} writes, {calls.threads} threads"
    print(f"{name}: status {own.status}, {len(own.text)} bytes, {made}")
    counts = [try_kind(kind, program, name, text, own, most) for kind in kinds]
    return [sum(column) for column in zip(*counts)]


def built_library(folder):
    """The library that refuses calls, built in a folder."""
    source = pathlib.Path(__file__).resolve().with_name("refusing_calls.c")
    library = f"{folder}/refusing_calls.so"
    subprocess.run(["cc", "-O2", "-shared", "-fPIC", "-o", library, str(source), "-ldl"], check=True)
    return library


def main():
    options = argparse.ArgumentParser(description=__doc__, formatter_class=argparse.RawDescriptionHelpFormatter)
    options.add_argument("--kinds", default=",".join(KINDS))
    options.add_argument("--most", type=int, help="runs of a kind for an input, at most")
    options.add_argument("command", nargs=argparse.REMAINDER)
    words = sys.argv[1:]
    if "--" not in words:
        options.parse_args(["--help"])
    files = words[words.index("--") + 1 :]
    given = options.parse_args(words[: words.index("--")])
    kinds = given.kinds.split(",")
    if not given.command or not set(kinds) <= set(KINDS):
        options.error("no program, or no such kind")
    command = [os.path.abspath(given.command[0]), *given.command[1:]]
    with tempfile.TemporaryDirectory() as folder:
        program = Program(command, built_library(folder))
        counts = [try_input(program, name, kinds, given.most) for name in files]
    runs, wrong = (sum(column) for column in zip(*counts))
    print(f"{len(files)} inputs, {runs} runs with a refused call, {wrong} ended as they are not to")
    return 1 if wrong else 0


sys.exit(main())
