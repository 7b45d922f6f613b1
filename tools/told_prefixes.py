#!/usr/bin/env python3
"""Counts the prefixes that UPDATEs announced and withdrew on all sessions of a run, of what the remotes received.

    told_prefixes.py < OUTPUT

OUTPUT is what `top_rows` prints of commands that show the octets that each remote received, as lines `received: `.
"""
import sys

HEADER, UPDATE = 19, 2


def prefixes(field):
    """How many prefixes a field of RFC 4271 section 4.3 holds."""
    count = at = 0
    while at < len(field):
        at += 1 + (field[at] + 7) // 8
        count += 1
    return count


def told(stream):
    """What the whole UPDATEs of a stream announce, and what they withdraw."""
    announced = withdrawn = at = 0
    while at + HEADER <= len(stream):
        length = int.from_bytes(stream[at + 16 : at + 18], "big")
        if at + length > len(stream):
            break
        if stream[at + 18] == UPDATE:
            body = stream[at + HEADER : at + length]
            gone = 2 + int.from_bytes(body[:2], "big")
            attributes = int.from_bytes(body[gone : gone + 2], "big")
            withdrawn += prefixes(body[2:gone])
            announced += prefixes(body[gone + 2 + attributes :])
        at += length
    return announced, withdrawn


def main():
    counts = {}
    command = None
    for line in sys.stdin:
        if line.startswith("graftlab"):
            command = line.strip()
            counts[command] = (0, 0)
        elif line.startswith("received:"):
            more = told(bytes.fromhex(line[len("received:") :]))
            counts[command] = tuple(map(sum, zip(counts[command], more)))
    for command, (announced, withdrawn) in counts.items():
        print(f"{command}: announced {announced}, withdrew {withdrawn}")


if __name__ == "__main__":
    main()
