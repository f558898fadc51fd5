#!/usr/bin/env python3
"""That docs/FORMAT.md is complete: reader.py was written from that page alone, with nothing else seen, but for what it says
that others added.

    tests/format/compare.py STREAMS SEED COMMAND...      COMMAND starts the library behind a pipe (tests/caller)

It and the library get the same streams, clean and damaged, and have to answer the same: check, unpack and probe with
number, detail and every value; and pack, length, bound and the codes of values alone. Half of the streams have groups of
128. Within a tolerance many of the values are halves, which are written by the rule of the level. One stream in fourteen has
up to three chunks, most of them damaged within, for the place that refusal 10 names. Two in fourteen have side parts, for
the high ids, the need and the order 9 8 15 10. Two in fourteen have a summary or are to get one: added, tested and listed
from, true and false. The last line is 'N passed, M failed', a stream each.
"""

import itertools
import pathlib
import random
import sys

import reader

sys.path.append(str(pathlib.Path(__file__).resolve().parent.parent / "caller"))
from caller import Caller  # noqa: E402  the folder has to be named first

HEADER_WORDS = 12
LEVEL = reader.LEVELS[-1]
BOTH_RULES = (reader.EVEN_LEVEL - 1, LEVEL)   # levels that write every setting, one by each rule for halves
INTERESTING = [0, 1, 2, 3, 7, 8, 9, 10, 11, 12, 13, 14, 15, 31, 32, 33, 48, 52, 63, 64, 65, 128, 255, 256, 257, 258, 259, 512, 1023,
               1024, 1025, 1048576, 1048577, 2**31 - 1, 2**31, 2**32 - 2, 2**32 - 1]


# ---- what is packed

def some_count(pick):
    return pick.choice([0, 1, 2, 31, 32, 33, 127, 128, 129, pick.randrange(100), pick.randrange(200), pick.randrange(1100)] + [pick.randrange(64)] * 12)


def some_setting(pick):
    """A width, a mode, a k and a group size."""
    width, mode = pick.choice([32, 64]), pick.choice([0, 1, 2])
    low, high = reader.ALLOWED_K[width]
    k = pick.choice([low, high, pick.randrange(low, high + 1), pick.randrange(-12, 3)]) if mode == 1 else 0
    return width, mode, k, pick.choice(reader.SIZES)


def other_setting(pick, width, mode, k):
    """A mode and a k that are mostly not allowed, and a group size that may be; or those that were, with another group size."""
    low, high = reader.ALLOWED_K[width]
    if pick.random() < 0.3:
        return mode, k, pick.choice([0, 1, 31, 33, 64, 127, 129, 256, 1024, 2**32 - 1])
    return (pick.choice([0, 1, 2, 3, 255, 256, 257, 258, 2**32 - 1]), pick.choice([0, 1, -1, low - 1, high + 1, -2**31, 2**31 - 1]),
            pick.choice([32, 32, 128, 64]))


def some_level(pick):
    return pick.choice([*reader.LEVELS] + [*BOTH_RULES] * 3 + [pick.choice([0, 7, LEVEL + 1, 2**32 - 1])])


def special_patterns(width):
    m, half = reader.FRACTION_BITS[width], 1 << (width - 1)
    return [0, half, 1, half + 1, half - 1, 2 * half - 1, half - (1 << m), half - (1 << m) + 1]


def some_values(pick, width, k):
    return some_walk(pick, width) if pick.random() < 0.3 else some_field(pick, width, k)


def some_walk(pick, width):
    """Patterns that change little: small steps up and down, past the ends too, and runs of equal ones, which fill whole groups."""
    count, most = some_count(pick), pick.choice([0, 1, 3, 5000])
    at = pick.choice([pick.randrange(1 << width)] + special_patterns(width))
    values = []
    while len(values) < count:
        values += [at] * pick.choice([1, 1, 1, 1, 2, 50, 100])
        at = (at + pick.randrange(-most, most + 1)) % (1 << width)
    return values[:count]


def some_half(pick, width, k):
    """An odd number of 2^k, which is a half of bins up to the threshold, with either sign; at the smallest k any number of bins.
    At times what is next to it."""
    m, j = reader.FRACTION_BITS[width], max(k + reader.BIN_OFFSET[width] - 1, 0)
    odd = 2 * pick.randrange(1 << pick.randrange(m + 1)) + 1
    return (reader.ordinal_of_multiple(m, j, odd) + pick.choice([-1, 0, 0, 0, 0, 0, 0, 1])) % 2**(width - 1) + 2**(width - 1) * pick.randrange(2)


def some_field(pick, width, k):
    """Patterns of one kind: any, special, alike, around the threshold and the bins, or halves, which two lists in six are of."""
    m, half, special = reader.FRACTION_BITS[width], 1 << (width - 1), special_patterns(width)
    bins = k + reader.BIN_OFFSET[width]
    middle = pick.randrange(half)
    kinds = [lambda: pick.randrange(2 * half), lambda: pick.choice(special), lambda: (middle + pick.randrange(5000)) % (2 * half),
             lambda: (max(bins + pick.choice([1 - m, 0, 1, 1, 1]), 0) * (1 << m) + pick.randrange(-3, 4)) % half + half * pick.randrange(2),
             lambda: some_half(pick, width, k), lambda: some_half(pick, width, k)]
    kind = pick.choice(kinds)
    return [kind() if pick.random() < 0.95 else pick.choice(special) for _ in range(some_count(pick))]


# ---- what is damaged

def words(numbers):
    return b"".join(n.to_bytes(4, "little") for n in numbers)


def some_ids(pick):
    """Ids that increase strictly: small ones, and mostly some around 2^31 and the last one there is, several high ones too."""
    count, high = pick.choice([1, 2, 3, 4, 64, 65]), reader.HIGH_ID
    near = {high - 1, high, high + 1, 2**32 - 1, pick.randrange(2**30, high), pick.randrange(high, 2**32)}
    chosen = pick.sample(sorted(near), min(pick.choice([0, 0, 1, 1, 2, 3, 5]), count))
    return sorted(chosen + pick.sample(range(3 * count), count - len(chosen)))


def need_in(data):
    """The need of the width and the mode number in a header."""
    return reader.need(reader.word(data, 12), *reader.said(reader.word(data, 16)))


def with_need(pick, data, ids=()):
    """Written and needed in the header: mostly the need of the stream, else any from 7 to 15, and mostly a written minor not below it."""
    of_setting = need_in(data)
    right = max([of_setting] + [reader.HIGH_ID_NEED] * any(part_id >= reader.HIGH_ID for part_id in ids))
    needed = pick.choice([right] * 5 + [of_setting, pick.randrange(7, 16), pick.randrange(7, 16)])
    written = pick.choice([needed, needed + 1, max(needed, LEVEL), 2**32 - 1] * 3 + [needed - 1, 0])
    return data[:4] + words([written, needed]) + data[12:]


def with_parts(pick, data, ids):
    """The stream with a side part of each id. It is in order where nothing lies behind the end of the data yet."""
    return joined(data, ids, [bytes(pick.randrange(256) for _ in range(pick.randrange(4))) for _ in ids])


def joined(data, ids, parts):
    places = list(itertools.accumulate(map(len, parts), initial=len(data) + 12 * len(parts)))
    table = b"".join(words([part_id, place, len(part)]) for part_id, place, part in zip(ids, places, parts))
    return data[:40] + words([len(parts)]) + data[44:] + table + b"".join(parts)


def with_sides(pick, data):
    ids = some_ids(pick)
    return with_need(pick, with_parts(pick, data, ids), ids)


def other_word(pick, data):
    at = 4 * pick.randrange(HEADER_WORDS + 2)
    old = int.from_bytes(data[at:at + 4], "little")
    new = pick.choice(INTERESTING + [old + 1, old - 1, len(data), len(data) + 1]) % 2**32
    return data[:at] + words([new]) + data[at + 4:]


def other_mode(pick, data):
    """Another mode number, k and need in the header: mostly the need of that mode and group size, so that the codes are read by other rules.
    At times the mode is the same, and the group size alone another."""
    needed, width, number, k = (reader.word(data, at) for at in (8, 12, 16, 20))
    number = pick.choice([0, 1, 2, 2, 3, 256, 257, 258, 259, 512, number ^ 256, number ^ 256])
    needed = pick.choice([reader.need(width, *reader.said(number))] * 4 + [needed, pick.randrange(7, 16)])
    return data[:8] + words([needed, width, number, pick.choice([k, k, 0, 0, 1])]) + data[24:]


def other_byte(pick, data):
    at = pick.randrange(len(data))
    return data[:at] + bytes([pick.choice([0, 255, pick.randrange(256)])]) + data[at + 1:]


def other_bit(pick, data):
    at = pick.randrange(48, len(data)) if len(data) > 48 else pick.randrange(len(data))
    return data[:at] + bytes([data[at] ^ 1 << pick.randrange(8)]) + data[at + 1:]


def damaged(pick, data):
    for _ in range(pick.choice([0, 0, 1, 1, 1, 2, 3])):
        how = pick.choice([other_word, other_mode, other_byte, other_bit, other_bit, with_sides, with_need,
                           lambda pick, data: data[:pick.randrange(len(data) + 1)],
                           lambda pick, data: data + bytes(pick.randrange(1, 4))])
        if data:
            data = how(pick, data)
    return data


# ---- what is damaged within chunks

def chunks_of(data):
    """The chunks of a clean stream, each as the list of its groups."""
    h = reader.header_of(data)
    chunks, at, size = [], h.data_at, reader.said(h.mode)[1]
    for first in range(0, h.n, reader.CHUNK):
        chunks.append([])
        for left in range(min(reader.CHUNK, h.n - first), 0, -size):
            behind = at + 1 + (data[at] * min(size, left) + 7) // 8
            chunks[-1].append(data[at:behind])
            at = behind
    return chunks


def with_chunks(data, chunks):
    """The stream with other chunks. The header and the chunk table are made to fit: only 10 can refuse it, unless a chunk is left empty."""
    bodies = [b"".join(groups) for groups in chunks]
    *starts, length = itertools.accumulate(map(len, bodies), initial=0)
    return data[:44] + words([reader.header_of(data).data_at + length] + starts) + b"".join(bodies)


def other_group(pick, width, group):
    """A group with too large a w, a w that is not the smallest, codes and fill bits of ones, missing bytes, or bytes behind it."""
    w, codes = group[:1], group[1:]
    return pick.choice([bytes([pick.choice([width + 1, 255])]) + codes, w + bytes(len(codes)), w + b"\xff" * len(codes),
                        other_bit(pick, group), group[:pick.randrange(len(group))], group + bytes(pick.randrange(1, 4))])


def other_groups(pick, width, groups):
    """Alters one group or more, the first and the last more often than others. Now and then the chunk ends with such a group."""
    places = {pick.choice([0, len(groups) - 1, pick.randrange(len(groups))]) for _ in range(pick.choice([1, 1, 2, 3]))}
    for at in sorted(places, reverse=True):
        groups[at] = other_group(pick, width, groups[at])
        if pick.random() < 0.1:
            del groups[at + 1:]


def damaged_within(pick, width, data):
    chunks = chunks_of(data)
    for groups in pick.sample(chunks, min(pick.choice([0, 1, 1, 1, 2, 3]), len(chunks))):
        other_groups(pick, width, groups)
    return with_chunks(data, chunks)


# ---- what is damaged in the tables

def other_start(pick, data):
    """Another first start of a chunk, or where there is no chunk whatever stands there."""
    return data[:48] + words([pick.choice([1, 2**32 - 1])]) + data[52:]


def other_entry(pick, data):
    """One number of one entry of the side table, altered a little, by its highest bit, or to that of another entry."""
    h = reader.header_of(data)
    number = 4 * pick.randrange(3)
    at, other = (h.end + 12 * pick.randrange(h.s) + number for _ in range(2))
    old = reader.word(data, at)
    new = pick.choice([old + 1, old - 1, old ^ reader.HIGH_ID, reader.word(data, other)]) % 2**32
    return data[:at] + words([new]) + data[at + 4:]


def damaged_in_tables(pick, data):
    """Mostly a wrong table, at times both; a number of side parts that is not theirs; bytes missing or added behind the parts."""
    for _ in range(pick.choice([1, 1, 1, 2])):
        how = pick.choice([other_start, other_entry, other_entry, other_entry,
                           lambda pick, data: data[:40] + words([pick.choice([0, reader.word(data, 40) - 1])]) + data[44:],
                           lambda pick, data: data[:-pick.randrange(1, 14)],
                           lambda pick, data: data + bytes(pick.randrange(1, 4))])
        if reader.word(data, 40) and len(data) > 60:
            data = how(pick, data)
    return data


# ---- what is summed up, and how it is made false

def some_chunks(pick, width, k):
    """Values of up to three chunks, mostly of few; now and then a chunk has not-a-numbers only, or zeros of both signs."""
    half, infinity = 1 << (width - 1), (1 << (width - 1)) - (1 << reader.FRACTION_BITS[width])
    n = pick.choice([0, 1, 2, 33, pick.randrange(100), pick.randrange(100), pick.randrange(1025, 3073), pick.randrange(1025, 3073)])
    values = list(itertools.islice(itertools.cycle(some_values(pick, width, k) or [0]), n))
    for first in range(0, n, reader.CHUNK):
        alike = pick.choice([None, None, None, None, [infinity + 1, infinity + half + 2, 2 * half - 1], [0, half], [half], [infinity], [infinity + half]])
        if alike is not None:
            last = pick.choice([reader.CHUNK, reader.CHUNK, pick.randrange(1, reader.CHUNK)])
            values[first:first + last] = [pick.choice(alike) for _ in values[first:first + last]]
    return values


def some_x(pick, width, values):
    """A pattern to list from: a value or what is next to it, a zero, an infinity, any; seldom a not-a-number."""
    near = [pick.choice(values) + step for step in (-1, 0, 0, 1)] if values else []
    some = [x % (1 << width) for x in near + special_patterns(width) + [pick.randrange(1 << width)]]
    return pick.choice([x for x in some if reader.kind_of(width, x) < 2 or pick.random() < 0.1] or [0])


def other_value(pick, data):
    """A bit of the data altered: a rule is broken, or a value is another, and with it maybe what its chunk's summary has to say."""
    h = reader.header_of(data)
    return data[:h.data_at] + other_bit(pick, data[h.data_at:h.end]) + data[h.end:] if h.n else data


def other_part(pick, data):
    """The summary of a stream that has nothing else beside the data, made false: a bit, a byte, two entries exchanged, both ends exchanged,
    or another length; or it gets another id, or stands beside other parts."""
    h = reader.header_of(data)
    part, size = data[h.end + 12:], reader.entry_length(h.width)
    at, other = (size * pick.randrange(max(h.c, 1)) for _ in range(2))
    value = h.width // 8
    entry = part[at:at + size]
    parts = [part, part, part[:-1], part + bytes(1), part[size:], b"", part[:at] + entry[:4] + entry[4 + value:] + entry[4:4 + value] + part[at + size:],
             part[:at] + part[other:other + size] + part[at + size:], other_byte(pick, part) if part else part, other_bit(pick, part) if part else part]
    ids = [1] if pick.random() < 0.5 else pick.choice([[0], [2], [0, 1], [1, 2], [0, 1, reader.HIGH_ID - 1], [1, reader.HIGH_ID]])
    bodies = [pick.choice(parts) if part_id == 1 or len(ids) == 1 else bytes(pick.randrange(3)) for part_id in ids]
    return with_need(pick, joined(data[:h.end], ids, bodies), ids) if pick.random() < 0.2 else joined(data[:h.end], ids, bodies)


# ---- the comparison

def calls_of_any(pick, library):
    """The calls for one more stream of any kind: those that write, and those that read it once it is damaged."""
    width, mode, k, size = some_setting(pick)
    values = some_values(pick, width, k)
    asked = (mode, k, size) if pick.random() < 0.92 else other_setting(pick, width, mode, k)
    setting = width, some_level(pick), *asked, values
    room = reader.length(*setting)[1] + pick.choice([0, 0, 0, -1, 5])
    calls = [("pack", *setting, max(room, 0)), ("length", *setting),
             ("bound", pick.choice([32, 64, 64, 16]), pick.choice([pick.randrange(2**63), pick.randrange(2**64), pick.randrange(2**54), 1, 0]))]
    data = damaged(pick, library.pack(width, LEVEL, mode, k, size, values, 2**14)[2])
    acting, n = some_level(pick), len(values)
    other = width if pick.random() < 0.95 else 96 - width
    calls += [("check", acting, data), ("unpack", other, acting, data, max(n + pick.choice([0, 0, 0, 1, -1]), 0))]
    calls += [("probe", other, acting, data, index) for index in (pick.randrange(n + 1), pick.choice([0, n, 1023, 1024, 2**64 - 1]))]
    return calls + calls_of_codes(pick, width, k)


def calls_of_codes(pick, width, k):
    """The calls for the code of a half alone: by each rule and at times by one that there is not, at times under a k that is not allowed."""
    low, high = reader.ALLOWED_K[width]
    asked = pick.choice([k] * 12 + [low - 1, high + 1, -2**31, 2**31 - 1])
    half = some_half(pick, width, k)
    return [("tolerance_code", width, rule, asked, half) for rule in [*reader.HALVES, pick.choice([*reader.HALVES] * 4 + [2, 2**31, 2**32 - 1])]]


def calls_of_chunks(pick, library):
    """The calls for one more stream of up to three chunks: the one that writes it, and those that read it once it is damaged within them."""
    width, mode, k, size = some_setting(pick)
    n = pick.choice([1024, 1025, 2048, pick.randrange(1, 1024), pick.randrange(1, 3072), size * pick.randrange(1, 3072 // size)])
    values = list(itertools.islice(itertools.cycle(some_values(pick, width, k) or [0]), n))
    packing = ("pack", width, pick.choice(BOTH_RULES), mode, k, size, values, 2**15)
    data = damaged_within(pick, width, library.pack(*packing[1:])[2])
    if pick.random() < 0.2:
        data = with_sides(pick, data)
    return [packing, ("check", LEVEL, data), ("unpack", width, LEVEL, data, n)] + [
        ("probe", width, LEVEL, data, index) for index in (pick.randrange(n), n - 1)]


def calls_of_sides(pick, library):
    """The calls for one more stream with side parts, which have high ids or not: its need, its tables and its chunks can be wrong, and
    the reader can be that of the other width, lack room or look behind the values."""
    width, mode, k, size = some_setting(pick)
    values = some_values(pick, width, k)
    data, n = library.pack(width, LEVEL, mode, k, size, values, 2**14)[2], len(values)
    if pick.random() < 0.3:
        data = damaged_within(pick, width, data)
    data = with_sides(pick, data)
    if pick.random() < 0.3:
        data = damaged_in_tables(pick, data)
    acting = pick.choice([LEVEL] * 10 + [*range(7, LEVEL + 2)])
    other = width if pick.random() < 0.85 else 96 - width
    return [("check", acting, data), ("unpack", other, acting, data, max(n + pick.choice([0, 0, 0, 0, 1, -1]), 0))] + [
        ("probe", other, acting, data, index) for index in (pick.randrange(n + 1), pick.choice([0, max(n - 1, 0), n]))]


def calls_of_summaries(pick, library):
    """The calls for one more summary: added, at times to a stream that is damaged or has side parts already; and tested and listed from, true or
    false, at times in a stream that is damaged besides."""
    width, mode, k, size = some_setting(pick)
    values = some_chunks(pick, width, k)
    data = library.pack(width, LEVEL, mode, k, size, values, 2**15)[2]
    bytes_needed = len(data) + 12 + reader.chunks_in(len(values)) * reader.entry_length(width)
    copy = library.add_summary(LEVEL, data, bytes_needed)[2]
    if pick.random() < 0.6:
        copy = pick.choice([other_part] * 12 + [lambda pick, copy: data])(pick, copy)
    if pick.random() < 0.25:
        copy = pick.choice([damaged, damaged_in_tables, other_value, other_value, lambda pick, copy: copy[:pick.randrange(48)]])(pick, copy)
    acting, other = pick.choice([LEVEL] * 6 + [some_level(pick)]), width if pick.random() < 0.9 else 96 - width
    given = pick.choice([data, data, damaged(pick, data), damaged_within(pick, width, data), copy])
    restored = library.unpack(width, LEVEL, data, len(values))[2]
    return [("add_summary", acting, given, bytes_needed + pick.choice([0, 0, 0, -1, 5])), ("check", acting, copy), ("test_summary", acting, copy)] + [
        ("chunks_from", other, acting, some_x(pick, other, restored), copy, pick.choice([0, 1, 2, 3, 3, 3])) for _ in range(3)]


KINDS = [calls_of_any] * 9 + [calls_of_sides] * 2 + [calls_of_chunks] + [calls_of_summaries] * 2


def differences(pick, library):
    """What differs for one more stream, each as the call and both answers."""
    calls = pick.choice(KINDS)(pick, library)
    answers = [(call, getattr(reader, call[0])(*call[1:]), getattr(library, call[0])(*call[1:])) for call in calls]
    return [answer for answer in answers if answer[1] != answer[2]]


def main():
    streams, pick, failed = int(sys.argv[1]), random.Random(int(sys.argv[2])), 0
    with Caller(sys.argv[3:]) as library:
        for _ in range(streams):
            found = differences(pick, library)
            failed += bool(found)
            for call, page, answer in found[:1] if failed <= 10 else []:
                print(f"{call[0]}{str(call[1:])[:300]}\n  by the page: {str(page)[:300]}\n  the library: {str(answer)[:300]}")
    print(f"{streams - failed} passed, {failed} failed")
    sys.exit(1 if failed else 0)


if __name__ == "__main__":
    main()
