#!/usr/bin/env python3
"""The program that wrote the kept streams, through the library.

    tests/ages/keep.py FOLDER COMMAND...         COMMAND starts the library behind a pipe (tests/caller)

It writes each stream that is not in the folder, and never one that is: what was written once is at sea. Where a stream
is there with other bytes than are written now, it says so and ends with status 1. A landing adds its streams here,
under names of their own, and calls tests/ages/keep.

A name has the width and the setting, then what was packed and the level that wrote it, and last what was added or
edited; or `bad` and how the stream was damaged, where 1-2 is group 2 of chunk 1. A setting without a group size has
groups of 32. A damaged stream is made from that of the lowest level that writes the setting. A name that ends with
`summary` is that of a stream with a true summary and nothing else beside its data; what follows that word says what was
then edited.
"""

import pathlib
import sys

TESTS = pathlib.Path(__file__).resolve().parent.parent
sys.path += [str(TESTS / "caller"), str(TESTS / "format")]
import reader  # noqa: E402  its folder has to be named first
from caller import Caller  # noqa: E402

# Width, mode, k, group size, and the levels that write it.
SETTINGS = [(32, 0, 0, 32, (8, 9, 10, 11, 12, 13, 14)), (32, 1, -8, 32, (9, 10, 11, 12, 13, 14)), (64, 0, 0, 32, (10, 11, 12, 13, 14)),
            (64, 1, -8, 32, (10, 11, 12, 13, 14)), (32, 2, 0, 32, (11, 12, 13, 14)), (64, 2, 0, 32, (11, 12, 13, 14))]
SETTINGS += [(width, mode, k, 128, (13, 14)) for width, mode, k, _, _ in SETTINGS]
FULLY_128 = [(32, 0), (64, 1)]  # width and mode: in groups of 128 these have all kinds of streams, the others less of what is alike
LIMITS = [(32, 1, -150, 32, 9), (32, 1, 103, 32, 9), (64, 1, -1075, 32, 10), (64, 1, 970, 32, 10)]
LIMITS += [(width, mode, k, 128, 13) for width, mode, k, _, _ in LIMITS]
# Width, k, group size, and the levels that write lists of halves: the oldest, the last that sends them away from zero, and the first that
# sends them to even. The smallest k has no halves; the one after it is here.
HALVES = [(32, -8, 32, (9, 13, 14)), (64, -8, 32, (10, 13, 14)), (32, -8, 128, (13, 14)), (64, -8, 128, (13, 14))]
HALVES_AT_LIMITS = [(32, -149, 32, (13, 14)), (32, 103, 32, (13, 14)), (64, -1074, 32, (13, 14)), (64, 970, 32, (13, 14))]

# The places of the header's numbers.
MAJOR, WRITTEN, NEEDED, WIDTH, MODE, K, COUNT, CHUNKS, TABLE, START, SIDES, END = range(0, 48, 4)


# ---- what is packed: patterns, by whole numbers alone

LONG = 1099     # two chunks, and 11 values in the last group: bits are left over behind them unless 8 divides w
COLUMNS = 44


def water(width, i):
    """A water level between 1.6 and 1.7 m, smooth along the rows; at width 64 with fraction bits below those of 32."""
    row, column = divmod(i, COLUMNS)
    fraction = 0x500000 + 9000 * row - 61 * column * (COLUMNS - column)
    return 0x3F800000 + fraction if width == 32 else (0x3FF << 52) + (fraction << 29) + i * i * 7919 % 2**29


def parts_of(width):
    """The patterns of the smallest normal number and of infinity, and the sign."""
    unit, sign = 1 << reader.FRACTION_BITS[width], 1 << (width - 1)
    return unit, sign - unit, sign


def dry(width, i):
    """A not-a-number: with either sign, quiet or not, with no payload, a small one and the largest."""
    unit, infinity, sign = parts_of(width)
    quiet = infinity + unit // 2
    return [quiet, infinity + 1, sign + quiet, sign - 1, 2 * sign - 1, quiet + 77, sign + infinity + 9][i % 7]


def special(width):
    """Infinities, zeros, the smallest and the largest numbers of a kind; half a bin and the threshold of k = -8, where
    the tolerance code changes, and what is just below them: all with both signs. And dry cells."""
    unit, infinity, sign = parts_of(width)
    one = infinity // unit // 2 * unit
    half_bin, threshold = one - 8 * unit, one + (reader.FRACTION_BITS[width] - 7) * unit
    unsigned = [infinity, 0, 1, 2, unit - 1, unit, infinity - 1, half_bin - 1, half_bin, threshold - 1, threshold]
    return [pattern + each for pattern in unsigned for each in (sign, 0)] + [dry(width, i) for i in range(7)]


def field(width):
    """Water around an island of dry cells, with one in the very middle, and special values in two places."""
    values = [water(width, i) for i in range(LONG)]
    for i in range(LONG):
        if 10 <= i // COLUMNS < 15 and 18 <= i % COLUMNS < 26:
            values[i] = dry(width, i)
    specials = special(width)
    values[128:128 + len(specials)] = specials
    values[-len(specials):] = specials[::-1]
    return values


def calm(width):
    """As long, and nearly all 0, so that its damaged streams are short: water in some groups, in one a dry cell too."""
    values = [water(width, i) if i // 32 in (0, 3, 5, 7, 31, 32, 34) else 0 for i in range(LONG)]
    values[7 * 32 + 9] = dry(width, 0)
    return values


def still(width):
    """The same for groups of 128: three of them in the second chunk, the last of 75 values."""
    values = [water(width, i) if i // 128 in (0, 5, 7, 10) else 0 for i in range(1355)]
    values[7 * 128 + 9] = dry(width, 0)
    return values


def thirty_three(width):
    """A full group with a dry cell in its middle, and one of a single value."""
    return [dry(width, 1) if i == 16 else water(width, i) for i in range(33)]


def rough(width, count):
    """Water with a dry cell as its last value, which widens the group that holds it: it shows where the groups begin."""
    return [water(width, i) for i in range(count - 1)] + [dry(width, 2)]


def multiple(width, k, number):
    """The pattern of a number of 2^k."""
    return reader.ordinal_of_multiple(reader.FRACTION_BITS[width], k + reader.BIN_OFFSET[width] - 1, number)


def halves(width, k):
    """Two chunks of halves, each some bins of 2^(k+1) and half of one. Stretches of 128 by turns: of no bin, and in the middle of the list of up
    to 3, so that groups have more bits by one rule than by the other; of a gauge that counts in steps of 2^k; around powers of two, as far as
    the threshold; and with what is just below and above a half. With both signs. And two dry cells."""
    _, _, sign = parts_of(width)
    most, values = 1 << reader.FRACTION_BITS[width], []
    for i in range(LONG):
        stretch = i // 128 % 4
        bins = [i // 512 % 2 * (i % 4), 200 + i % 7 * (i % 11), max((most >> i % 29) - 1 - i % 3, 0), i % 32][stretch]
        beside = i % 3 - 1 if stretch == 3 else 0
        negative = (i // 64 if stretch == 0 else i // 3) % 2
        values.append(multiple(width, k, 2 * bins + 1) + beside + negative * sign)
    values[700], values[-1] = dry(width, 0), dry(width, 3)
    return values


def quarters(width):
    """0.25, -0.75, 4194303.75 and -1.25: halves of k = -2."""
    _, _, sign = parts_of(width)
    return [multiple(width, -2, 1), sign + multiple(width, -2, 3), multiple(width, -2, 2**24 - 1), sign + multiple(width, -2, 5)]


def exponents(width):
    """Where a case of the exponent step begins or ends: around zero, around the middle exponent, and at the last ones.
    Of each exponent the smallest number, the next and the largest, with both signs."""
    unit, infinity, sign = parts_of(width)
    last = infinity // unit
    middle = (last + 1) // 2
    edges = [0, 1, 2, middle - 1, middle, middle + 1, last - 1, last]
    return [exponent * unit + fraction + each for exponent in edges for fraction in (0, 1, unit - 1) for each in (sign, 0)]


def resting(width):
    """A walk that rests for 70 values at a time, so that groups of no bits repeat what stands before them, across the
    start of the second chunk too; it goes through 0 and 2^width - 1, where a difference wraps, and past dry cells."""
    stops = [water(width, 0), dry(width, 0), 0, 2**width - 1, 1, dry(width, 4), water(width, 99), 2**(width - 1)]
    return [stops[i // 70 % len(stops)] for i in range(LONG)]


def edges(width):
    """Five chunks for what a summary tells apart, of few bits: 0 beside one -0, -0 alone, numbers just below 0 beside minus
    infinity, infinity and dry cells among zeros, and in the last, of five values, dry cells alone."""
    _, infinity, sign = parts_of(width)
    values = [0] * 1024 + [sign] * 1024 + [sign + 1 + i % 3 for i in range(1024)] + [0] * 1024 + [dry(width, i) for i in range(5)]
    values[500], values[2048 + 700] = sign, sign + infinity
    values[3072 + 100:3072 + 104] = [infinity] + [dry(width, i) for i in range(3)]
    return values


def widths(width, mode, k, size):
    """A group for each width byte that the setting can have."""
    largest = 2 * reader.largest_u(width, k) + 1 if mode == 1 else 2**width - 1
    codes = [min(2**w - 1, largest) >> i % (w + 1) for w in range(largest.bit_length() + 1) for i in range(size)]
    chunks = [codes[start:start + 1024] for start in range(0, len(codes), 1024)]
    return [pattern for chunk in chunks for pattern in reader.restored(width, mode, k, chunk)]


# ---- edits

def number_at(data, at):
    return int.from_bytes(data[at:at + 4], "little")


def spelled(*numbers):
    return b"".join((number % 2**32).to_bytes(4, "little") for number in numbers)


def with_number(data, at, number):
    return data[:at] + spelled(number) + data[at + 4:]


def with_byte(data, at, byte):
    return data[:at] + bytes([byte]) + data[at + 1:]


def with_sides(data, parts):
    """Side parts, each an id and its bytes, behind a stream that has none."""
    place, table = len(data) + 12 * len(parts), b""
    for part_id, part in parts:
        table += spelled(part_id, place, len(part))
        place += len(part)
    return with_number(data, SIDES, len(parts)) + table + b"".join(part for _, part in parts)


def chunk_at(data, chunk):
    """Where a chunk starts; behind the last, where the data ends."""
    if chunk == number_at(data, CHUNKS):
        return number_at(data, END)
    return number_at(data, START) + number_at(data, number_at(data, TABLE) + 4 * chunk)


def with_bytes(data, chunk, start, end, new):
    """Other bytes from start to end in a chunk; the chunk table and the end of the data say where all is now."""
    longer = len(new) - (end - start)
    data = data[:start] + new + data[end:]
    for at in [48 + 4 * after for after in range(chunk + 1, number_at(data, CHUNKS))] + [END]:
        data = with_number(data, at, number_at(data, at) + longer)
    return data


def group_of(data, chunk, group):
    """Where a group starts and ends, and its width byte and codes. The groups before it in the chunk are full."""
    at, size = chunk_at(data, chunk), 32 if number_at(data, MODE) < 256 else 128
    for _ in range(group):
        at += 1 + size // 8 * data[at]
    w, count = data[at], min(size, number_at(data, COUNT) - 1024 * chunk - size * group)
    end = at + 1 + (w * count + 7) // 8
    bits = int.from_bytes(data[at + 1:end], "little")
    return at, end, w, [bits >> i * w & (1 << w) - 1 for i in range(count)]


def with_group(data, chunk, group, w, codes):
    """A group with these codes, of w bits each, in the place of the one that is there."""
    start, end, _, _ = group_of(data, chunk, group)
    bits = sum(code << i * w for i, code in enumerate(codes))
    return with_bytes(data, chunk, start, end, bytes([w]) + bits.to_bytes((w * len(codes) + 7) // 8, "little"))


# ---- the streams: a name and bytes each

def setting_name(width, mode, k, size):
    name = f"{width}-within-k{k}" if mode == 1 else f"{width}-{'differences' if mode == 2 else 'lossless'}"
    return name if size == 32 else f"{name}-groups-of-{size}"


def packed(library, width, mode, k, size, level, values):
    number, detail, data = library.pack(width, level, mode, k, size, values, 2**16)
    if number != 0:
        sys.exit(f"keep.py: {setting_name(width, mode, k, size)} by {level} was refused by {number}, detail {detail}")
    return data


def written(library):
    """What each level writes of each of its settings."""
    for width, mode, k, size, levels in SETTINGS:
        name = setting_name(width, mode, k, size)
        lists = {"empty": [], "one": [water(width, 0)], "33": thirty_three(width), "field": field(width)}
        for level in levels:
            for what, values in lists.items():
                yield f"{name}-{what}-by-{level}", packed(library, width, mode, k, size, level, values)
        for what, values in (("calm", calm(width)), ("widths", widths(width, mode, k, size)), ("edges", edges(width))):
            yield f"{name}-{what}-by-{levels[0]}", packed(library, width, mode, k, size, levels[0], values)
        if size == 128:
            yield f"{name}-still-by-13", packed(library, width, mode, k, size, 13, still(width))
            for n in (127, 128, 129):
                yield f"{name}-{n}-by-13", packed(library, width, mode, k, size, 13, rough(width, n))
    for width in (32, 64):
        yield f"{width}-differences-resting-by-11", packed(library, width, 2, 0, 32, 11, resting(width))
        yield f"{width}-differences-groups-of-128-resting-by-13", packed(library, width, 2, 0, 128, 13, resting(width))
    for width, level in ((32, 8), (64, 10)):
        yield f"{width}-lossless-exponents-by-{level}", packed(library, width, 0, 0, 32, level, exponents(width))
        yield f"{width}-lossless-groups-of-128-exponents-by-13", packed(library, width, 0, 0, 128, 13, exponents(width))
    for n in (40, 993, 1048576):
        yield f"32-lossless-{n}-by-8", packed(library, 32, 0, 0, 32, 8, [0] * n)
    for n in (897, 1024, 1025, 1048576):
        yield f"32-lossless-groups-of-128-{n}-zeros-by-13", packed(library, 32, 0, 0, 128, 13, [0] * n)
    for width, mode, k, size, level in LIMITS:
        yield f"{setting_name(width, mode, k, size)}-field-by-{level}", packed(library, width, mode, k, size, level, field(width))
    for width, k, size, levels in HALVES + HALVES_AT_LIMITS:
        for level in levels:
            yield f"{setting_name(width, 1, k, size)}-halves-by-{level}", packed(library, width, 1, k, size, level, halves(width, k))
    for width, _, size, levels in HALVES:
        for level in levels:
            yield f"{setting_name(width, 1, -2, size)}-quarters-by-{level}", packed(library, width, 1, -2, size, level, quarters(width))


TWO_SIDES = [(1, b"Gdynia"), (9, b"")]
MANY_SIDES = [(5 * i, bytes(i % 3)) for i in range(63)] + [(2**32 - 1, b"last")]


def edited(streams):
    """What a reader has to take besides: side parts, and a writer of a later level."""
    for name in ("32-lossless-33-by-8", "32-within-k-8-calm-by-9", "64-lossless-33-by-10", "64-within-k-8-empty-by-10",
                 "32-differences-resting-by-11", "64-differences-33-by-11", "32-lossless-groups-of-128-129-by-13",
                 "64-within-k-8-groups-of-128-calm-by-13", "32-differences-groups-of-128-resting-by-13", "32-within-k-8-halves-by-14"):
        yield f"{name}-2-sides", with_sides(streams[name], TWO_SIDES)
    yield "32-lossless-33-by-8-64-sides", with_sides(streams["32-lossless-33-by-8"], MANY_SIDES)
    yield "32-lossless-33-by-8-written-4294967295", with_number(streams["32-lossless-33-by-8"], WRITTEN, 2**32 - 1)
    yield "64-within-k-8-33-by-10-written-11", with_number(streams["64-within-k-8-33-by-10"], WRITTEN, 11)
    yield "64-differences-33-by-11-written-12", with_number(streams["64-differences-33-by-11"], WRITTEN, 12)
    yield "32-lossless-groups-of-128-129-by-13-written-14", with_number(streams["32-lossless-groups-of-128-129-by-13"], WRITTEN, 14)
    # The written minor does not tell a reader how halves were rounded: the values are those of the codes.
    for name, level in (("32-within-k-8-halves-by-14", 9), ("32-within-k-8-halves-by-13", 14), ("64-within-k-8-halves-by-14", 15),
                        ("32-within-k-8-groups-of-128-halves-by-14", 13), ("64-within-k-8-groups-of-128-halves-by-13", 14)):
        yield f"{name}-written-{level}", with_number(streams[name], WRITTEN, level)


def resized(streams):
    """The other group size in the header, with its need: the groups are cut in other places than they were. Of 33 values; of one
    value, which is the same bytes at both sizes; of the field; and of zeros, which have too many or too few width bytes."""
    for width, mode, k, _, levels in SETTINGS[:6]:
        plain, name = setting_name(width, mode, k, 32), setting_name(width, mode, k, 128)
        for what in ("one", "33", "field") if (width, mode) in FULLY_128 else ("33",):
            yield f"{plain}-{what}-by-13-as-groups-of-128", with_setting(streams[f"{plain}-{what}-by-13"], mode + 256, 13)
            yield f"{name}-{what}-by-13-as-groups-of-32", with_setting(streams[f"{name}-{what}-by-13"], mode, levels[0])
    zeros = "32-lossless-groups-of-128-1024-zeros-by-13"
    yield f"{zeros}-as-groups-of-32", with_setting(streams[zeros], 0, 8)
    yield "32-lossless-993-by-8-as-groups-of-128", with_number(with_setting(streams["32-lossless-993-by-8"], 256, 13), WRITTEN, 13)


def later(streams):
    """What levels to come may write, as far as it concerns the levels of its day: it needs more than each of them. (The
    streams that need 11 are from before level 11, which reads no such setting; those that need 14 are from before level 14,
    which nothing needs.)"""
    data = with_number(with_number(streams["32-lossless-33-by-8"], WRITTEN, 11), NEEDED, 11)
    yield "32-lossless-33-need-11", data
    yield "32-lossless-33-need-11-cut-to-48", data[:48]
    yield "32-lossless-33-need-11-width-16-mode-2", with_number(with_number(data, WIDTH, 16), MODE, 2)
    data = with_number(with_number(streams["32-differences-33-by-11"], WRITTEN, 12), NEEDED, 12)
    yield "32-differences-33-need-12", data
    yield "32-differences-33-need-12-cut-to-48", data[:48]
    yield "32-differences-33-need-12-width-16-mode-258", with_number(with_number(data, WIDTH, 16), MODE, 258)
    yield "64-lossless-33-need-4294967295", with_number(streams["64-lossless-33-by-10"], NEEDED, 2**32 - 1)
    data = with_number(with_number(streams["64-differences-groups-of-128-33-by-13"], WRITTEN, 14), NEEDED, 14)
    yield "64-differences-groups-of-128-33-need-14", data
    yield "64-differences-groups-of-128-33-need-14-cut-to-48", data[:48]
    yield "64-differences-groups-of-128-33-need-14-width-16-mode-514", with_number(with_number(data, WIDTH, 16), MODE, 514)
    data = needing(streams["32-within-k-8-groups-of-128-33-by-14"], 15)
    yield "32-within-k-8-groups-of-128-33-need-15", data
    yield "32-within-k-8-groups-of-128-33-need-15-cut-to-48", data[:48]
    yield "32-within-k-8-groups-of-128-33-need-15-width-16", with_number(data, WIDTH, 16)
    yield "32-lossless-33-need-15-mode-3", with_number(needing(streams["32-lossless-33-by-14"], 15), MODE, 3)


HIGH = 2**31    # the first id that must be understood
LOW_SIDES = [(7, b"tide"), (HIGH - 1, b"gauge")]
HIGH_SIDES = [(7, b"tide"), (HIGH, b"datum"), (2**32 - 1, b"")]


def needing(data, needed):
    """With another need, and a written minor that reaches it."""
    return with_number(with_number(data, WRITTEN, max(needed, number_at(data, WRITTEN))), NEEDED, needed)


def with_setting(data, number, needed):
    """With another mode number and need."""
    return with_number(with_number(data, MODE, number), NEEDED, needed)


def guarded(streams):
    """Side parts on both sides of 2^31, with the need of the stream, one that is too small and one that is too large; and a
    high id beside a written minor that is too small, and beside a broken chunk table, side table and chunk."""
    for width, mode, k, size, levels in SETTINGS:
        if size == 128:
            some = list(guarded_128(streams, setting_name(width, mode, k, size)))
            yield from some if (width, mode) in FULLY_128 else some[:2]
            continue
        name = f"{setting_name(width, mode, k, size)}-33-by-12"
        need = levels[0]
        yield f"{name}-low-ids", with_sides(streams[name], LOW_SIDES)
        yield f"{name}-low-ids-need-12", needing(with_sides(streams[name], LOW_SIDES), 12)
        yield f"{name}-high-ids", needing(with_sides(streams[name], HIGH_SIDES), 12)
        yield f"{name}-high-ids-need-{need}", with_sides(streams[name], HIGH_SIDES)
        yield f"{name}-high-ids-need-13", needing(with_sides(streams[name], HIGH_SIDES), 13)
    name = "32-lossless-33-by-12"
    data = needing(with_sides(streams[name], HIGH_SIDES), 12)
    yield f"{name}-high-ids-written-11", with_number(data, WRITTEN, 11)
    yield f"{name}-high-ids-only", needing(with_sides(streams[name], HIGH_SIDES[1:]), 12)
    yield f"{name}-high-id-last-only", needing(with_sides(streams[name], [(1, b""), (2**32 - 1, b"end")]), 12)
    yield f"{name}-high-ids-no-values", needing(with_sides(streams["32-lossless-empty-by-12"], HIGH_SIDES), 12)
    yield f"{name}-high-ids-first-start-1", with_number(data, 48, 1)
    yield f"{name}-high-ids-exchanged", with_number(with_number(data, number_at(data, END), HIGH), number_at(data, END) + 12, 7)
    yield f"{name}-high-ids-added-byte", data + bytes(1)
    yield f"{name}-high-ids-w-255", with_byte(data, number_at(data, START), 255)
    yield f"{name}-high-ids-need-9", needing(data, 9)


def guarded_128(streams, setting):
    """The same of groups of 128, whose need is 13 with a high id and without."""
    name = f"{setting}-33-by-13"
    yield f"{name}-low-ids", with_sides(streams[name], LOW_SIDES)
    yield f"{name}-high-ids", with_sides(streams[name], HIGH_SIDES)
    yield f"{name}-low-ids-need-12", needing(with_sides(streams[name], LOW_SIDES), 12)
    yield f"{name}-high-ids-need-12", needing(with_sides(streams[name], HIGH_SIDES), 12)
    yield f"{name}-high-ids-need-14", needing(with_sides(streams[name], HIGH_SIDES), 14)


# ---- summaries

def summarised(library, streams):
    """What each level adds to what it wrote: a summary of 33 values; and of the lowest level, of longer and shorter lists."""
    names = []
    for width, mode, k, size, levels in SETTINGS:
        name = setting_name(width, mode, k, size)
        names += [f"{name}-33-by-{level}" for level in levels]
        names += [f"{name}-{what}-by-{levels[0]}" for what in ("empty", "one", "field", "calm", "edges")]
    names += [f"{setting_name(width, 1, k, size)}-halves-by-{level}" for width, k, size, levels in HALVES + HALVES_AT_LIMITS for level in levels]
    names += [f"{setting_name(width, 1, -2, size)}-quarters-by-{level}" for width, _, size, levels in HALVES for level in levels]
    names += ["32-differences-resting-by-11", "64-differences-resting-by-11"]
    for name in names + ["32-differences-groups-of-128-resting-by-13", "32-lossless-groups-of-128-1025-zeros-by-13"]:
        data = streams[name]
        number, detail, copy = library.add_summary(number_at(data, WRITTEN), data, len(data) + 2**12)
        if number != 0:
            sys.exit(f"keep.py: the summary of {name} was refused by {number}, detail {detail}")
        yield f"{name}-summary", copy


def summary_of(data):
    """The bytes of the one side part, and the stream without it."""
    end = number_at(data, END)
    return data[end + 12:], with_number(data, SIDES, 0)[:end]


def with_summary(data, part, part_id=1):
    """A stream with one side part in the place of the one that is there."""
    return with_sides(summary_of(data)[1], [(part_id, part)])


def false_summaries(width, part):
    """Of the list `edges`: each one a name and what stands in the place of its summary."""
    size, value = 4 + width // 4, width // 8
    zero, minus_zero = bytes(value), (1 << (width - 1)).to_bytes(value, "little")
    nan = dry(width, 0).to_bytes(value, "little")
    yield "zeros-exchanged", part[:4] + zero + minus_zero + part[size:]
    yield "byte-off", with_byte(part, 3 * size + 4 + value, part[3 * size + 4 + value] ^ 1)
    yield "short", part[:-1]
    yield "long", part + bytes(1)
    yield "count-off", with_byte(part, 3 * size, part[3 * size] ^ 1)
    yield "smallest-off", with_byte(part, 2 * size + 4, part[2 * size + 4] ^ 1)
    yield "smallest-0", part[:4] + zero + part[4 + value:]
    yield "chunk-missing", part[:-size]
    yield "chunk-added", part + part[-size:]
    yield "chunks-exchanged", part[size:2 * size] + part[:size] + part[2 * size:]
    yield "ends-exchanged", part[:2 * size + 4] + part[2 * size + 4 + value:3 * size] + part[2 * size + 4:2 * size + 4 + value] + part[3 * size:]
    yield "last-nan", part[:-2 * value] + nan + nan
    yield "empty", b""


BESIDE = [(0, b"tide"), (9, b""), (HIGH - 1, b"gauge")]


def beside(streams):
    """Summaries that are false, that have another id, or that stand beside other side parts; and in streams that are damaged besides."""
    for width, mode, k, size, levels in SETTINGS:
        if size == 128 and (width, mode) not in FULLY_128:
            continue
        name = f"{setting_name(width, mode, k, size)}-edges-by-{levels[0]}-summary"
        part, plain = summary_of(streams[name])
        falses = list(false_summaries(width, part))
        for what, false in falses if (width, mode) in ((32, 0), (64, 1)) and size == 32 else falses[:4]:
            yield f"{name}-{what}", with_summary(streams[name], false)
        yield f"{name}-id-2", with_summary(streams[name], part, 2)
        yield f"{name}-beside", with_sides(plain, sorted(BESIDE + [(1, part)]))
        yield f"{name}-short-beside", with_sides(plain, sorted(BESIDE + [(1, part[:-1])]))
        yield f"{name}-high-id", needing(with_sides(plain, [(1, part), (HIGH, b"datum")]), max(12, levels[0]))
    name = "32-lossless-33-by-8-summary"
    data = streams[name]
    part, plain = summary_of(data)
    start, _, w, codes = group_of(data, 0, 0)
    yield f"{name}-id-0", with_summary(data, part, 0)
    yield f"{name}-high-id-need-8", with_sides(plain, [(1, part), (HIGH, b"datum")])
    yield f"{name}-w-255", with_byte(data, start, 255)
    yield f"{name}-first-start-1", with_number(data, 48, 1)
    yield f"{name}-cut-last-byte", data[:-1]
    yield f"{name}-cut-off", data[:number_at(data, END)]
    yield f"{name}-added-byte", data + bytes(1)
    yield f"{name}-n-34", with_number(data, COUNT, 34)
    # The value 0 is the largest, and the value 8 neither that nor the smallest.
    yield f"{name}-largest-altered", with_group(data, 0, 0, w, [codes[1]] + codes[1:])
    yield f"{name}-between-altered", with_group(data, 0, 0, w, codes[:8] + [codes[7]] + codes[9:])


# ---- a need that nothing has

def unneeded(streams):
    """A need of 14 in what level 14 wrote, of every setting; and beside a written minor that is too small, low and high ids, a summary, and a
    broken header, chunk table, side table and chunk. And a need of 15."""
    for width, mode, k, size, _ in SETTINGS:
        name = f"{setting_name(width, mode, k, size)}-33-by-14"
        yield f"{name}-need-14", needing(streams[name], 14)
    for name in ("32-within-k-8-halves-by-14", "64-within-k-8-groups-of-128-halves-by-14"):
        data = needing(streams[name], 14)
        yield f"{name}-need-14", data
        yield f"{name}-need-14-written-13", with_number(data, WRITTEN, 13)
        yield f"{name}-need-14-low-ids", with_sides(data, LOW_SIDES)
        yield f"{name}-need-14-high-ids", with_sides(data, HIGH_SIDES)
        yield f"{name}-need-14-k1000", with_number(data, K, 1000)
        yield f"{name}-need-14-first-start-1", with_number(data, 48, 1)
        yield f"{name}-need-14-added-byte", data + bytes(1)
        yield f"{name}-need-14-w-255", with_byte(data, number_at(data, START), 255)
        yield f"{name}-need-15", needing(streams[name], 15)
        yield f"{name}-summary-need-14", needing(streams[f"{name}-summary"], 14)


# Numbers of the header that are not those of the setting, or not those of 33 values: in groups of 32, and in groups of 128.
BAD_NUMBERS = {
    (32, 0): [("major-0", MAJOR, 0), ("major-2", MAJOR, 2), ("written-7", WRITTEN, 7), ("need-7", NEEDED, 7),
              ("width-33", WIDTH, 33), ("mode-2", MODE, 2), ("k1", K, 1), ("n-0", COUNT, 0), ("n-32", COUNT, 32),
              ("n-34", COUNT, 34), ("n-1048577", COUNT, 1048577), ("c-2", CHUNKS, 2), ("table-52", TABLE, 52),
              ("start-56", START, 56), ("65-sides", SIDES, 65), ("end-51", END, 51),
              ("end-4294967295", END, 2**32 - 1)],
    (32, 1): [("need-8", NEEDED, 8), ("mode-0", MODE, 0), ("k104", K, 104), ("k-151", K, -151)],
    (64, 0): [("need-9", NEEDED, 9), ("width-32", WIDTH, 32), ("k-1", K, -1)],
    (64, 1): [("need-9", NEEDED, 9), ("width-32", WIDTH, 32), ("k971", K, 971), ("k-1076", K, -1076)],
    (32, 2): [("need-8", NEEDED, 8), ("need-10", NEEDED, 10), ("written-10", WRITTEN, 10), ("mode-0", MODE, 0),
              ("mode-1", MODE, 1), ("mode-3", MODE, 3), ("k1", K, 1), ("k-1", K, -1)],
    (64, 2): [("need-10", NEEDED, 10), ("mode-0", MODE, 0), ("mode-1", MODE, 1), ("k1", K, 1)],
}
BAD_NUMBERS_128 = {
    (32, 0): [("mode-0", MODE, 0), ("mode-1", MODE, 1), ("mode-2", MODE, 2), ("mode-3", MODE, 3), ("mode-255", MODE, 255),
              ("mode-259", MODE, 259), ("mode-512", MODE, 512), ("mode-65792", MODE, 65792), ("mode-2147483904", MODE, 2**31 + 256),
              ("need-8", NEEDED, 8), ("need-12", NEEDED, 12), ("written-12", WRITTEN, 12), ("k1", K, 1), ("width-33", WIDTH, 33)],
    (32, 1): [("mode-1", MODE, 1), ("mode-256", MODE, 256), ("mode-259", MODE, 259), ("need-9", NEEDED, 9), ("k104", K, 104), ("k-151", K, -151)],
    (64, 0): [("mode-0", MODE, 0), ("mode-3", MODE, 3), ("mode-259", MODE, 259), ("need-10", NEEDED, 10), ("k-1", K, -1)],
    (64, 1): [("mode-1", MODE, 1), ("mode-512", MODE, 512), ("need-10", NEEDED, 10), ("k971", K, 971), ("k-1076", K, -1076)],
    (32, 2): [("mode-2", MODE, 2), ("mode-259", MODE, 259), ("mode-514", MODE, 514), ("need-11", NEEDED, 11), ("k1", K, 1), ("k-1", K, -1)],
    (64, 2): [("mode-2", MODE, 2), ("mode-257", MODE, 257), ("need-11", NEEDED, 11), ("written-12", WRITTEN, 12), ("k1", K, 1)],
}


def bad_setting(numbers, data):
    """Of 33 values in any setting."""
    yield "cut-to-100", data[:100]
    yield "cut-last-byte", data[:-1]
    yield "added-byte", data + bytes(1)
    for what, place, number in numbers:
        yield f"header-{what}", with_number(data, place, number)


def bad_sizes(streams):
    """Groups of 128 in the header of 33 values in groups of 32, without the need of that."""
    for width, mode, k, _, levels in SETTINGS[:6]:
        name = setting_name(width, mode, k, 32)
        yield f"{name}-bad-header-mode-{256 + mode}", with_number(streams[f"{name}-33-by-{levels[0]}"], MODE, 256 + mode)
        yield f"{name}-bad-header-need-13", needing(streams[f"{name}-33-by-{levels[0]}"], 13)


def bad_groups(width, mode, k, data):
    """Every rule of a group broken, of the calm field or the still one: the bytes of all other groups are as they were."""
    _, _, _, codes = group_of(data, 0, 0)
    yield "w-too-large-in-0-0", with_group(data, 0, 0, width + 1, [codes[0] | 1 << width] + codes[1:])
    start, end, _, _ = group_of(data, 1, 2)
    yield "w-255-in-1-2", with_byte(data, start, 255)
    yield "padding-bit-in-1-2", with_byte(data, end - 1, data[end - 1] | 128)
    yield "missing-group-1-2", with_bytes(data, 1, start, end, b"")
    for group in (1, 5):
        _, _, w, codes = group_of(data, 0, group)
        yield f"w-not-smallest-in-0-{group}", with_group(data, 0, group, w + 1, codes)
    if mode == 1:
        _, _, w, codes = group_of(data, 0, 7)
        yield "u-too-large-in-0-7", with_group(data, 0, 7, w, [2 * (reader.largest_u(width, k) + 1)] + codes[1:])


def bad_chunks(width, data):
    """Bytes of a chunk left over or missing, and more than one bad group, of the calm field."""
    for chunk in (0, 1):
        end = chunk_at(data, chunk + 1)
        yield f"byte-left-over-in-{chunk}", with_bytes(data, chunk, end, end, bytes(1))
        yield f"byte-missing-in-{chunk}", with_bytes(data, chunk, end - 1, end, b"")
    for chunk, group in ((0, 5), (1, 0)):
        at = group_of(data, chunk, group)[0]
        yield f"groups-0-3-and-{chunk}-{group}", with_byte(with_byte(data, group_of(data, 0, 3)[0], 255), at, width + 1)


def bad_places(width, mode, k, data):
    """Two faults in chunk 0, of the calm field: the one in the earlier group counts, whichever rules they break."""
    _, _, w, codes = group_of(data, 0, 2)
    too_large = 2 * (reader.largest_u(width, k) + 1) if mode == 1 else 0
    early = with_group(data, 0, 2, too_large.bit_length() or w + 1, [too_large or codes[0]] + codes[1:])
    fifth, end = group_of(early, 0, 5)[0], chunk_at(early, 1)
    yield "0-2-and-missing-0-5", with_bytes(early, 0, fifth, end, b"")
    yield "0-2-and-left-over-in-0", with_bytes(early, 0, end, end, bytes(1))


def bad_tables(data):
    """Of the calm field, in which chunk 1 starts at the place that the table has at 52."""
    length, second = number_at(data, END) - number_at(data, START), number_at(data, 52)
    for what, place, number in (("first-start-1", 48, 1), ("second-start-0", 52, 0), ("second-start-past", 52, length),
                                ("second-start-early", 52, second - 1), ("second-start-late", 52, second + 1)):
        yield f"table-{what}", with_number(data, place, number)


def bad_sides(data):
    """Of two side parts."""
    end = number_at(data, END)
    place = number_at(data, end + 4)
    yield "sides-cut-off", data[:end]
    yield "sides-cut-in-table", data[:end + 20]
    yield "sides-cut-in-part", data[:-1]
    yield "sides-added-byte", data + bytes(1)
    yield "sides-1-of-2", with_number(data, SIDES, 1)
    for what, at, number in (("equal-ids", 12, 1), ("falling-ids", 12, 0), ("first-place", 4, place + 1),
                             ("second-place", 16, place), ("first-length", 8, 5), ("second-length", 20, 1)):
        yield f"sides-{what}", with_number(data, end + at, number)
    # Places and lengths that would be right, were sums taken modulo 2^32.
    first, second = spelled(1, place, -2), spelled(9, place - 2, len(data) - place + 2)
    yield "sides-sums-wrap", data[:end] + first + second + data[end + 24:]


def too_many():
    """A value more than a stream takes, and no other rule of the header or the tables broken: a byte for each chunk."""
    return spelled(1, 8, 8, 32, 0, 0, 1048577, 1025, 48, 48 + 4 * 1025, 0, 48 + 5 * 1025, *range(1025)) + bytes(1025)


def bad_others(streams):
    """Of width 32, lossless."""
    data = streams["32-lossless-33-by-8"]
    for length in (0, 47, 48, 50):
        yield f"cut-to-{length}", data[:length]
    yield "header-need-9", with_number(streams["32-lossless-33-by-9"], NEEDED, 9)
    yield "header-n-1048577-c-1025", too_many()
    for n in (40, 993):
        zeros = streams[f"32-lossless-{n}-by-8"]
        yield f"{n}-left-over-in-0", with_bytes(zeros, 0, len(zeros), len(zeros), bytes(2))
    yield "table-chunk-without-data", with_number(data[:52], END, 52)
    yield "table-data-without-chunk", with_number(streams["32-lossless-empty-by-8"], END, 49) + bytes(1)


def damaged(streams):
    for width, mode, k, size, levels in SETTINGS:
        name = setting_name(width, mode, k, size)
        calm_data = streams[f"{name}-{'calm' if size == 32 else 'still'}-by-{levels[0]}"]
        numbers = (BAD_NUMBERS if size == 32 else BAD_NUMBERS_128)[width, mode]
        bads = [bad_setting(numbers, streams[f"{name}-33-by-{levels[0]}"]), bad_groups(width, mode, k, calm_data)]
        if size == 32 or (width, mode) in FULLY_128:
            bads += [bad_chunks(width, calm_data), bad_places(width, mode, k, calm_data)]
        if (width, mode, size) == (32, 0, 32):
            bads += [bad_tables(streams["32-lossless-calm-by-8"]), bad_sides(streams["32-lossless-33-by-8-2-sides"]),
                     bad_others(streams)]
        yield from ((f"{name}-bad-{what}", data) for bad in bads for what, data in bad)
    yield from bad_sizes(streams)


# ---- keeping

def keep(path, data):
    """Whether the stream is kept now. It is written where there is none of its name."""
    if not path.exists():
        path.write_bytes(data)
    elif path.read_bytes() != data:
        print(f"keep.py: {path.stem} is kept with other bytes than are written now; it is left as it is")
        return False
    return True


def main():
    folder, streams, status = pathlib.Path(sys.argv[1]), {}, 0
    with Caller(sys.argv[2:]) as library:
        for some in (written(library), edited(streams), resized(streams), later(streams), guarded(streams), damaged(streams),
                     summarised(library, streams), beside(streams), unneeded(streams)):
            for name, data in some:
                streams[name] = data
                status |= not keep(folder / f"{name}.gwz", data)
    sys.exit(status)


if __name__ == "__main__":
    main()
