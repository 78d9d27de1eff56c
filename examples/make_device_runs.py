#!/usr/bin/env python3
"""Writes a fixed run of questions and changes for devices, and what a plain model of a device answers to each.

    make_device_runs.py INPUT OUTPUT

The model is a list of lists. Two kinds of fingerprint are asked (8 bytes, and the low byte of the same hash), and a
device of no containers.
"""
import random
import sys

CONTAINERS = 3


def fnv1a(data):
    value = 0xcbf29ce484222325
    for byte in data:
        value = ((value ^ byte) * 0x100000001b3) & (2 ** 64 - 1)
    return value


class Model:
    def __init__(self, count, mask):
        self.containers, self.mask = [[] for _ in range(count)], mask

    def name(self, level, payload):
        return fnv1a(bytes([level]) + payload) & self.mask

    def append(self, c, level, length, fill):
        if c >= len(self.containers):
            return "refused 11"
        if level > 6 or not 1 <= length <= 1280:
            return "refused 3"
        held = self.containers[c]
        if len(held) >= 63 or sum(len(p) for _, p in held) + length > 7168:
            return "refused 26"
        held.append((level, bytes([fill]) * length))
        return "0"

    def erase(self, c):
        if c >= len(self.containers):
            return "refused 11"
        self.containers[c] = []
        return "0"

    def container(self, c):
        if c >= len(self.containers):
            return "refused 11 refused 11"
        held = self.containers[c]
        return "%d %d" % (len(held), sum(len(p) for _, p in held))

    def record(self, c, i):
        if c >= len(self.containers) or i >= len(self.containers[c]):
            return "refused 11"
        level, payload = self.containers[c][i]
        return str(1000000 * level + 1000 * len(payload) + payload[0])

    def find(self, level, length, fill):
        sought = self.name(level, bytes([fill]) * length)
        for c, held in enumerate(self.containers):
            for i, (l, p) in enumerate(held):
                if self.name(l, p) == sought:
                    return str(100 + 100 * c + i)
        return "0"


def steps():
    # the limits at their edges
    yield from [("append", 0, 6, 1280, 1), ("append", 0, 7, 5, 1), ("append", 0, 0, 1281, 1), ("append", 0, 0, 0, 1)]
    yield from [("append", CONTAINERS - 1, 0, 1, 9), ("append", CONTAINERS, 0, 1, 9), ("append", CONTAINERS, 7, 0, 9)]
    yield from [("append", 0, 1, 1280, n) for n in (2, 3, 4, 5)] + [("append", 0, 2, 769, 6), ("append", 0, 2, 768, 6)]
    yield from [("container", 0), ("append", 0, 0, 1, 1), ("record", 0, 5), ("record", 0, 6)]
    yield from [("append", 1, 0, 1, n) for n in range(64)]
    yield from [("container", 1), ("find", 0, 1, 62), ("find", 0, 1, 63), ("erase", 1), ("find", 0, 1, 62), ("container", 1)]
    # and some hundred changes with questions between them
    chance = random.Random(1986)
    for _ in range(400):
        c, what = chance.randrange(CONTAINERS + 1), chance.randrange(20)
        level, length, fill = chance.randrange(8), chance.choice((1, 3, 200, 1279, 1280, 1281)), chance.randrange(4)
        if what < 11:
            yield ("append", c, level, length, fill)
        elif what < 12:
            yield ("erase", c)
        elif what < 14:
            yield ("container", c)
        elif what < 17:
            yield ("record", c, chance.randrange(12))
        else:
            yield ("find", level, length, fill)


def main():
    models = [Model(CONTAINERS, 2 ** 64 - 1), Model(CONTAINERS, 255), Model(0, 2 ** 64 - 1)]
    with open(sys.argv[1], "w") as given, open(sys.argv[2], "w") as told:
        for step in steps():
            line = " ".join(str(word) for word in step)
            given.write(line + "\n")
            told.write(line + ": " + "; ".join(getattr(m, step[0])(*step[1:]) for m in models) + "\n")


main()
