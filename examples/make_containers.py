#!/usr/bin/env python3
"""Writes container files from the format alone (docs/FORMAT.md), with none of the proved code.

    make_containers.py sample FILE     the file that the listing of the gate shows
    make_containers.py listing FILE    what the program must list of a file
    make_containers.py copied FILE     what the program must say of its copy
    make_containers.py sets FILE BYTES PLACE ..   what the program must say of its live sets
    make_containers.py damages FILE    the lines that turn a file's bytes, and on standard output what each must get

A record is (level, payload); its fingerprint is FNV-1a of the level byte and then the payload.
"""
import struct
import sys

RECORDS, BODY = 63, 7168


def fnv1a(data):
    value = 0xcbf29ce484222325
    for byte in data:
        value = ((value ^ byte) * 0x100000001b3) & (2 ** 64 - 1)
    return value


def fingerprint(level, payload, width=8):
    return struct.pack("<Q", fnv1a(bytes([level]) + payload))[:width]


def size(width=8):
    return 16 + RECORDS * (width + 8) + BODY


def container(records, width=8):
    entries, body = b"", b""
    for level, payload in records:
        entries += fingerprint(level, payload, width) + struct.pack("<BBHI", level, 0, len(payload), len(body))
        body += payload
    header = struct.pack("<HH", len(records), len(body)) + bytes(12)
    return header + entries.ljust(RECORDS * (width + 8), b"\0") + body.ljust(BODY, b"\0")


def node(level, children):
    return (level, b"".join(fingerprint(*child) for child in children))


def sample():
    coast = [(0, b"coastline, sheet %d" % i) for i in range(1, 4)]
    harbour = (0, b"harbour lights")
    north, south = node(1, coast), node(1, [coast[2], harbour])
    chart = node(2, [north, south])
    soundings = [(0, b"sounding %02d fathoms" % i) for i in range(63)]
    wrong = bytearray(container(coast + [harbour, north, south, chart]))
    wrong[16 + 3 * 16] ^= 1  # the fourth record's fingerprint is not its own
    return bytes(wrong) + container(soundings) + container([]) + container([(0, bytes(1280)), (1, b"no fingerprint")])


def check(data, width=8):
    """What the check must answer: 'N containers' or the number of the refusal."""
    count, rest = divmod(len(data), size(width))
    if rest or not 2 <= count <= 32:
        return "refused 1"
    for c in range(count):
        part = data[c * size(width):(c + 1) * size(width)]
        records, used = struct.unpack_from("<HH", part)
        if records > RECORDS or any(part[4:16]):
            return "refused 2"
        offset = 0
        for i in range(records):
            at = 16 + i * (width + 8) + width
            level, gap, length, begin = struct.unpack_from("<BBHI", part, at)
            if level > 6 or gap or not 1 <= length <= 1280 or begin != offset or offset + length > BODY:
                return "refused 2"
            offset += length
        body = 16 + RECORDS * (width + 8)
        if offset != used or any(part[16 + records * (width + 8):body]) or any(part[body + used:]):
            return "refused 2"
    return "%d containers" % count


def damages(data):
    """Each line: what is turned, then pairs of an offset and the byte that is put there."""
    second, body = 8192, 1024
    lines = [
        ("as it was", []),
        ("record count 8 for 7", [(0, 8)]),
        ("record count 6 for 7", [(0, 6)]),
        ("record count of 263", [(1, 1)]),
        ("64 records in the full container", [(second, 64)]),
        ("payload bytes one more", [(2, data[2] + 1)]),
        ("payload bytes one less", [(2, data[2] - 1)]),
        ("payload bytes' high byte", [(3, data[3] + 1)]),
        ("first zero byte of a header", [(4, 1)]),
        ("last zero byte of a header", [(15, 255)]),
        ("another fingerprint", [(16, data[16] ^ 255)]),
        ("level 6 for a strip", [(24, 6)]),
        ("level 7", [(24, 7)]),
        ("level 255", [(24, 255)]),
        ("the byte behind a level", [(25, 1)]),
        ("a length one more", [(26, data[26] + 1)]),
        ("a length one less", [(26, data[26] - 1)]),
        ("a length of 0", [(26, 0)]),
        ("a length's high byte", [(27, 1)]),
        ("the first offset 1", [(28, 1)]),
        ("the second offset one more", [(44, data[44] + 1)]),
        ("an offset's highest byte", [(31, 1)]),
        ("another payload byte", [(body, 0)]),
        ("the first unused entry byte", [(16 + 7 * 16, 1)]),
        ("the last unused entry byte", [(body - 1, 1)]),
        ("the first byte behind the payloads", [(body + 256 * data[3] + data[2], 1)]),
        ("the last byte of a container", [(second - 1, 1)]),
        ("a record count in the free container", [(2 * second, 1)]),
        ("a byte in the free container", [(2 * second + 5000, 1)]),
        ("a length of 1,281 and the bytes to match", [(3 * second + 26, 1), (3 * second + 44, 1), (3 * second + 2, data[3 * second + 2] + 1)]),
        ("the last byte of the file", [(4 * second - 1, 9)]),
    ]
    for name, turned in lines:
        copy = bytearray(data)
        for at, byte in turned:
            copy[at] = byte % 256
        yield "turn " + " ".join("%d %d" % (at, byte % 256) for at, byte in turned), "%s: %s" % (name, check(bytes(copy)))
    for width in (8, 1):
        for count in (0, 1, 2, 32, 33):
            for extra in (-1, 0, 1):
                length = count * size(width) + extra
                if length >= 0:
                    yield "zeros %d %d" % (width, length), "%d zero bytes at width %d: %s" % (length, width, check(bytes(length), width))


def listing(data, width=8):
    """What the program lists of a file that passes the check."""
    yield check(data, width)
    for c in range(len(data) // size(width)):
        part = data[c * size(width):(c + 1) * size(width)]
        records, used = struct.unpack_from("<HH", part)
        yield "container %d: %d records, %d payload bytes" % (c, records, used)
        for i in range(records):
            at = 16 + i * (width + 8)
            level, _, length, offset = struct.unpack_from("<BBHI", part, at + width)
            begin = 16 + RECORDS * (width + 8) + offset
            own = fingerprint(level, part[begin:begin + length], width)
            named = "right" if part[at:at + width] == own else "WRONG"
            yield "  record %d: level %d, fingerprint %s (%s), %d bytes" % (i, level, part[at:at + width].hex(), named, length)


def fingerprints(data):
    """The place and the fingerprint of every record."""
    for c in range(len(data) // size()):
        part = data[c * size():(c + 1) * size()]
        for i in range(struct.unpack_from("<H", part)[0]):
            yield (c, i), part[16 + i * 16:24 + i * 16]


def sets(data, length, marked):
    """What the exact table and a Bloom filter of some bytes say when the records at the places given are marked."""
    bits = lambda key: {fnv1a(bytes([s]) + key) % (8 * length) for s in range(4)}
    all_ = list(fingerprints(data))
    live = {key for place, key in all_ if place in marked}
    filled = set().union(*(bits(key) for key in live))
    yield "%d records, %d named, a filter of %d bytes" % (len(all_), len(marked), length)
    false = [place for place, key in all_ if key not in live and bits(key) <= filled]
    for c, i in false:
        yield "record %d of container %d: the filter says yes, and it was not marked" % (i, c)
    yield "the exact table says yes to %d, the filter to %d more" % (sum(key in live for _, key in all_), len(false))


def copied(data):
    """What a copy of a file reports."""
    heads = [struct.unpack_from("<HH", data, c * size()) for c in range(len(data) // size())]
    totals = (sum(r for r, _ in heads), sum(b for _, b in heads), len(heads))
    yield "moved %d records with %d payload bytes in %d containers, by way of a tape" % totals
    yield "the files are equal, byte for byte"


def main():
    what, path = sys.argv[1:3]
    if what in ("sets", "copied"):
        with open(path, "rb") as file:
            data = file.read()
        places = {tuple(map(int, word.split("."))) for word in sys.argv[4:]}
        print("\n".join(copied(data) if what == "copied" else sets(data, int(sys.argv[3]), places)))
        return
    if what == "listing":
        with open(path, "rb") as file:
            print("\n".join(listing(file.read())))
        return
    if what == "sample":
        with open(path, "wb") as out:
            out.write(sample())
    else:
        with open(path, "w") as out:
            for line, answer in damages(sample()):
                name = answer.rsplit(":", 1)[0]
                out.write(name + "|" + line + "\n")
                print(answer)


main()
