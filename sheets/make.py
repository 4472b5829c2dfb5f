#!/usr/bin/env python3
"""Writes the example sheets of this folder, byte by byte.

A sheet is the byte 1 and then records: two bytes of length, a tag, fields; numbers have the high byte first.
Tag 1: events, kind. Tag 2: from, to, and for kind 1 eight bytes of a signed number. Tag 3: the events from rank 1 on.
"""
from pathlib import Path

FOLDER = Path(__file__).resolve().parent


def record(body):
    return len(body).to_bytes(2, "big") + bytes(body)


def bound(start, end, micros):
    return record([2, start, end, *micros.to_bytes(8, "big", signed=True)])


def sheet(events, bounds, ordering=None):
    parts = [bytes([1]), record([1, events, 1])]
    parts += [bound(*each) for each in bounds]
    if ordering is not None:
        parts.append(record([3, *ordering]))
    return b"".join(parts)


CYCLE = [(0, 1, 100), (1, 0, -40), (1, 2, 50), (2, 1, -10), (0, 2, 200)]

SHEETS = {
    # three events: each window is narrower than the limits as they stand; 71 bytes
    "worked": sheet(3, CYCLE),
    # the same limits, closed in another ordering: the windows are the same
    "reordered": sheet(3, CYCLE, [1, 2, 0]),
    # 1 comes at most 10 after 0, yet 2 at least 4 before 1, and 0 at least 7 before 2
    "contradiction": sheet(3, [(0, 1, 10), (1, 2, -4), (2, 0, -7)]),
    # two limits that meet in event 2 only: open ends
    "open": sheet(3, [(0, 2, 5), (1, 2, 5)]),
    # the same limits in another ordering: other counts, the same windows
    "open_reordered": sheet(3, [(0, 2, 5), (1, 2, 5)], [2, 1, 0]),
    # event 1 comes before event 0: both ends are under zero
    "before": sheet(2, [(0, 1, -30), (1, 0, 70)]),
    # cut in transfer, in the last record
    "cut": sheet(3, CYCLE)[:65],
    # a limit for a device that is not on the line
    "stranger": sheet(3, CYCLE + [(0, 7, 20)]),
    # strict microseconds, which the listing does not read
    "strict": bytes([1]) + record([1, 3, 2]),
}

for name, content in SHEETS.items():
    (FOLDER / (name + ".sheet")).write_bytes(content)
