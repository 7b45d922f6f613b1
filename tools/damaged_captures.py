#!/usr/bin/env python3
"""Damages captures, and compares how a program answers `import` with a second reading; and measures its memory on large captures.

    tools/damaged_captures.py [--seed N] [--large MEGABYTES] PROGRAM N [CAPTURE..]

It needs nothing but Python and captures: those that are named, else those of tools/recordings. Each of the N damaged captures is one of them,
as pcap or pcapng of either order, with one to three pieces of damage: its end is cut off; a piece is cut out, repeated or random; a bit is
turned; a number of a header (of the file, of a block or record, of IPv4, TCP or BGP) is another; a packet is missing, is there twice, or has
another place. Some are random octets alone. The seed decides which. The program gets it on its standard input and is to end within 20
seconds, with the status and the text of import_again.py, and nothing on standard error: one that it answers otherwise is kept in the current
folder as damaged.N.

Then come captures of 100 megabytes (--large; 0 for none): one remote's octets, which have no room; octets of the home side; packets that are
each of a remote of its own; segments without octets; packets of other ports; and one record. Each is told with its answer, its time, and the most memory that the program had, which is to be
at most four times the capture and 16 megabytes more.

How often each answer came is printed. The status is 1 where an answer was wrong, or a large capture took more memory.
"""
import argparse
import collections
import concurrent.futures
import glob
import os
import pathlib
import random
import struct
import subprocess
import sys
import tempfile
import time

import captures
import import_again
from captures import ACK, IPV4, PSH, SYN

SECONDS = 20
HOME = "192.0.2.2"
NUMBERS = (0, 1, 2, 3, 4, 8, 12, 16, 19, 20, 21, 28, 32, 60, 0x7F, 0xFF, 4095, 4096, 4097, 0x7FFF, 0xFFFF, 2**24, 2**31 - 1, 2**31, 2**32 - 1)


def cut_end(file, at, end, choose):
    del file[at:]


def cut_piece(file, at, end, choose):
    del file[at:end]


def repeat_piece(file, at, end, choose):
    file[at:at] = file[at:end]


def random_piece(file, at, end, choose):
    file[at:end] = choose.randbytes(end - at)


def turn_bit(file, at, end, choose):
    file[at] ^= 1 << choose.randrange(8)


def other_number(file, at, end, choose):
    """Two or four octets are another number, in either order, where a header may stand."""
    order, form = choose.choice("<>"), choose.choice("HI")
    at = choose.choice((at, at // 4 * 4, choose.randrange(min(len(file), 60))))
    size = struct.calcsize(form)
    if at + size <= len(file):
        near = struct.unpack_from(order + form, file, at)[0] + choose.choice((-4, -1, 1, 4))
        struct.pack_into(order + form, file, at, choose.choice((*NUMBERS, near, near)) % 256**size)


DAMAGES = [cut_end, cut_piece, repeat_piece, random_piece, turn_bit, turn_bit, other_number, other_number, other_number]


def field_of_packet(packets, choose):
    """A field of a packet is another number: a length, a type, a port, a sequence number, flags, or one of the octets' first ones."""
    place = choose.randrange(len(packets))
    octets = bytearray(packets[place].octets)
    if octets:
        at = choose.choice((12, 14, 16, 20, 23, 26, 30, 34, 36, 38, 46, 47, 66, 82, 84, 85, 86, 88, 90, 94, 95))
        at = min(at, len(octets) - 1)
        octets[at] = choose.choice((choose.randrange(256), octets[at] ^ 1 << choose.randrange(8)))
    return [*packets[:place], packets[place]._replace(octets=bytes(octets)), *packets[place + 1 :]]


def missing(packets, choose):
    place = choose.randrange(len(packets))
    return packets[:place] + packets[place + 1 :]


def twice(packets, choose):
    place = choose.randrange(len(packets))
    return packets[:place] + packets[choose.randrange(len(packets)) :][:1] + packets[place:]


def elsewhere(packets, choose):
    packets = list(packets)
    packet = packets.pop(choose.randrange(len(packets)))
    packets.insert(choose.randrange(len(packets) + 1), packet)
    return packets


def shortened(packets, choose):
    """As a capture with a snapshot length has them."""
    most = choose.choice((20, 40, 54, 66, 68, 96, 128, 1500))
    return [packet._replace(octets=packet.octets[:most]) for packet in packets]


def fragments(packets, choose):
    place = choose.randrange(len(packets))
    octets = bytearray(packets[place].octets)
    if len(octets) > 21:
        octets[20] = choose.choice((0x20, 0x00, 0x3F, 0x80, 0x60))
        octets[21] = choose.choice((0, 1, 185))
    return [*packets[:place], packets[place]._replace(octets=bytes(octets)), *packets[place + 1 :]]


CHANGES = [field_of_packet, field_of_packet, field_of_packet, missing, twice, elsewhere, shortened, fragments]


def damaged(packets, choose):
    """A capture with damage."""
    if choose.random() < 0.02:
        head = choose.choice((b"", captures.write_pcap([], choose.choice("<>")), captures.write_pcapng(packets[:1])[:48]))
        return head + choose.randbytes(choose.randrange(300))
    for _ in range(choose.choice((0, 1, 1, 2, 3))):
        if packets:
            packets = choose.choice(CHANGES)(packets, choose)
    order = choose.choice("<>")
    file = bytearray(captures.write_pcap(packets, order) if choose.random() < 0.5 else captures.write_pcapng(packets, order))
    for _ in range(choose.choice((0, 1, 1, 1, 2))):
        if file:
            at = choose.randrange(len(file))
            choose.choice(DAMAGES)(file, at, min(len(file), at + choose.choice((1, 2, 4, 16, 40, 100))), choose)
    return bytes(file)


def answer(program, home, file):
    """How the program answers: what it says, in short; and whether that is wrong."""
    words = [HOME] if home else []
    try:
        run = subprocess.run([program, "import", *words], input=file, capture_output=True, timeout=SECONDS)
    except subprocess.TimeoutExpired:
        return f"no answer in {SECONDS} seconds", True
    wanted = import_again.answer(file, bytes(map(int, HOME.split("."))) if home else None)
    told = "a laboratory" if run.returncode == 0 else " ".join(word for word in run.stdout.decode("latin1").split() if not any(map(str.isdigit, word)))
    wrong = (run.returncode, run.stdout.decode("latin1")) != wanted or bool(run.stderr)
    return f"status {run.returncode}, {told}" + (f", where import_again.py has {wanted[1][:60]!r}; {run.stderr[:60]!r}" if wrong else ""), wrong


def all_answers(options, files):
    """Asks about damaged captures, and returns how many answers were wrong."""
    choose = random.Random(options.seed)
    packets = [captures.read_capture(file) for file in files]
    made = [(choose.random() < 0.5, damaged(choose.choice(packets), choose)) for _ in range(options.count)]
    counts, wrong = collections.Counter(), 0
    with concurrent.futures.ThreadPoolExecutor(2) as workers:
        for place, (told, is_wrong) in enumerate(workers.map(lambda it: answer(options.program, *it), made)):
            counts[told] += 1
            wrong += is_wrong
            if is_wrong:
                pathlib.Path(f"damaged.{place}").write_bytes(made[place][1])
    for told, count in counts.most_common(40):
        print(count, told)
    print(f"{len(made)} captures, {len(set(made))} of them different, {wrong} answered as they are not to be")
    return wrong


REMOTE_END, HOME_END = (bytes([192, 0, 2, 1]), 50000), (bytes([192, 0, 2, 2]), 179)
OPENING = bytes.fromhex("ff" * 16 + "001d0104fde900b4c000020100") + bytes.fromhex("ff" * 16 + "001304")
KEEPALIVES = OPENING[29:] * 76


def record(source, target, number, octets, flags=PSH | ACK):
    packet = captures.ipv4_packet(source, target, number % 2**32, 0, flags, octets)
    return struct.pack("<IIII", 0, 0, len(packet), len(packet)) + packet


def large(size):
    """Captures of some size: of each its name and its octets, piece by piece."""
    head = captures.write_pcap([captures.Packet(IPV4, b"")])[:24]
    begin = record(REMOTE_END, HOME_END, 0, b"", SYN) + record(REMOTE_END, HOME_END, 1, OPENING)
    many = lambda one: (one(place) for place in range(size // len(one(0))))
    after = 1 + len(OPENING)
    yield "one remote's octets", (head, begin, many(lambda place: record(REMOTE_END, HOME_END, after + place * len(KEEPALIVES), KEEPALIVES)))
    yield "octets of the home side", (head, begin, many(lambda place: record(HOME_END, REMOTE_END, 1 + place * len(KEEPALIVES), KEEPALIVES)))
    yield "octets of the home side, one a packet", (head, begin, many(lambda place: record(HOME_END, REMOTE_END, 1 + place, b"x")))
    remote = lambda place: (bytes([10, place >> 16 & 255, place >> 8 & 255, place & 255]), 50000)
    yield "one octet of each remote", (head, b"", many(lambda place: record(remote(place), HOME_END, 0, b"x")))
    yield "an OPEN of each remote", (head, b"", many(lambda place: record(remote(place), HOME_END, 0, OPENING)))
    yield "segments without octets", (head, begin, many(lambda place: record(HOME_END, REMOTE_END, 1, b"", ACK)))
    other = (bytes([192, 0, 2, 9]), 443)
    yield "packets of other ports", (head, begin, many(lambda place: record(REMOTE_END, other, place, bytes(1400))))
    yield "records without octets", (head, begin, many(lambda place: bytes(16)))
    yield "one record", (head, struct.pack("<IIII", 0, 0, size, size), iter([bytes(size)]))


def measured(program, parts):
    """The answer to a large capture, with the seconds and the octets of memory that it took."""
    with tempfile.TemporaryFile() as given, tempfile.TemporaryFile() as told:
        for part in parts[:-1]:
            given.write(part)
        given.writelines(parts[-1])
        length = given.tell()
        given.seek(0)
        begin = time.monotonic()
        process = subprocess.Popen([program, "import"], stdin=given, stdout=told)
        _, status, used = os.wait4(process.pid, 0)
        process.returncode = os.waitstatus_to_exitcode(status)
        seconds = time.monotonic() - begin
        told.seek(0)
        line = told.readline().decode().strip()
        return process.returncode, line, length, used.ru_utime + used.ru_stime, seconds, used.ru_maxrss * 1024


def all_large(program, size):
    """Measures large captures, and returns how many took more memory than they are to take."""
    wrong = 0
    for name, parts in large(size):
        status, line, length, processor, seconds, memory = measured(program, parts)
        too_much = memory > 4 * length + 2**24 or status not in (0, 2)
        wrong += too_much
        print(f"{name}: {length / 1e6:.0f} MB, status {status}, {line!r}; {processor:.1f} s of processor time, {seconds:.1f} s, "
              f"{memory / 1e6:.0f} MB of memory, {memory / length:.1f} times the capture{', MORE THAN IT IS TO TAKE' if too_much else ''}")
    return wrong


def main():
    words = argparse.ArgumentParser(usage=__doc__)
    words.add_argument("--seed", type=int, default=7)
    words.add_argument("--large", type=int, default=100)
    words.add_argument("program")
    words.add_argument("count", type=int)
    words.add_argument("captures", nargs="*")
    options = words.parse_args()
    names = options.captures or sorted(glob.glob(os.path.join(os.path.dirname(__file__), "recordings", "*.pcap")))
    wrong = all_answers(options, [pathlib.Path(name).read_bytes() for name in names]) if options.count else 0
    wrong += all_large(options.program, options.large * 1000000) if options.large else 0
    return 1 if wrong else 0


if __name__ == "__main__":
    sys.exit(main())
