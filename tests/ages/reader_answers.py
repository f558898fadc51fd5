#!/usr/bin/env python3
"""What the reader of tests/format answers to streams at each level: the lines of tests/ages/answers, or with --summaries
those of tests/ages/summaries, as of ages.c.

    tests/ages/reader_answers.py [--summaries] STREAM...

That reader was written from docs/FORMAT.md alone, so that the kept answers are those of two programs that have nothing
in common.
"""

import pathlib
import sys
import zlib

sys.path.append(str(pathlib.Path(__file__).resolve().parent.parent / "format"))
import reader  # noqa: E402  the folder has to be named first

COUNT_AT, WIDTH_AT = 24, 12
MOST_CHUNKS = reader.MOST_VALUES // reader.CHUNK

# Minus infinity, a water level and infinity, of each width.
FROM = {32: (0xFF800000, 0x3FD00000, 0x7F800000), 64: (0xFFF0000000000000, 0x3FFA000000000000, 0x7FF0000000000000)}


def cell(number, detail, written=None):
    return f"{number}:{detail}" if written is None else f"{number}:{detail}:{written}"


def unpacked(width, level, data, n):
    number, detail, values = reader.unpack(width, level, data, n)
    if values is None:
        return cell(number, detail)
    return cell(number, detail, f"{zlib.crc32(b''.join(value.to_bytes(width // 8, 'little') for value in values)):08X}")


def probed(width, level, data, index):
    number, detail, pattern = reader.probe(width, level, data, index)
    return cell(number, detail, None if pattern is None else f"{pattern:0{width // 4}X}")


def added(level, data, room):
    number, detail, copy = reader.add_summary(level, data, room)
    return cell(number, detail, None if copy is None else f"{zlib.crc32(copy):08X}")


def listed(width, level, data, x, room=MOST_CHUNKS):
    number, detail, chunks = reader.chunks_from(width, level, x, data, room)
    return cell(number, detail, ",".join(map(str, chunks)) if chunks else None)


def header_of(data):
    """The count of values and the width of the header, however wrong; 0 and 32 where the bytes end before them."""
    n = reader.word(data, COUNT_AT) if len(data) >= COUNT_AT + 4 else 0
    return n, 64 if data[WIDTH_AT:WIDTH_AT + 1] == b"\x40" else 32


def answers(name, level, data):
    n, width = header_of(data)
    unpacks = [unpacked(each, level, data, n) for each in (32, 64)]
    probes = [probed(width, level, data, index) for index in (0, n // 2, (n - 1) % 2**64, n)]
    check, probes = cell(*reader.check(level, data)), "  ".join(f"{probe:20}" for probe in probes).rstrip()
    return f"{name:40}  {level:5}  {check:12}  {unpacks[0]:18}  {unpacks[1]:18}  {probes}"


def summaries(name, level, data):
    n, width = header_of(data)
    room = len(data) + 12 + (reader.chunks_in(n) * reader.entry_length(width) if n <= reader.MOST_VALUES else 0)
    below_all, water, above_all = FROM[width]
    test, add = cell(*reader.test_summary(level, data)), added(level, data, room)
    no_room = listed(width, level, data, below_all, 0)
    lists = [listed(32, level, data, 0), listed(64, level, data, 0)] + [listed(width, level, data, x) for x in (below_all, water, above_all)]
    lists = "  ".join(f"{each:13}" for each in lists).rstrip()
    return f"{name:52}  {level:5}  {test:12}  {add:18}  {no_room:12}  {lists}"


def main():
    words = sys.argv[1:]
    line = summaries if words[:1] == ["--summaries"] else answers
    for path in map(pathlib.Path, words[line is summaries:]):
        data = path.read_bytes()
        for level in reader.LEVELS:
            print(line(path.name.split(".")[0], level, data))


if __name__ == "__main__":
    main()
