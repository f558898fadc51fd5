#!/usr/bin/env python3
"""Makes harbour.f32, the field of the first run, beside this file.

Water levels of a harbour in metres above chart datum: 64 rows of 96 values, north to south and west to east, as
little-endian binary32. A dry cell is a not-a-number: 7FC00000 on land, 7FC00001 on a quay wall.

The levels are made with + - * / on binary64 alone, so every machine makes the same bytes.
"""
import pathlib
import struct

ROWS, COLUMNS = 64, 96
LAND, QUAY_WALL = 0x7FC00000, 0x7FC00001

# Row and column of the middle, depth in metres, and half-width in cells.
EDDIES = [(24, 30, 0.11, 7.0), (33, 70, 0.07, 5.0), (56, 47, 0.16, 9.0)]


def is_land(row, column):
    """The shore in the north, and a headland in the south-west."""
    shore = 8 + column * (COLUMNS - 1 - column) // 560
    return row < shore or row > 55 + column // 2


def is_quay_wall(row, column):
    """Two breakwaters with the mouth between them, and two piers from the shore."""
    breakwater = row in (46, 47) and not 42 <= column < 54
    pier = row < 22 and column in (30, 31, 64, 65)
    return breakwater or pier


def smooth_level(row, column):
    """A tide that stands higher outside, sloping across the basin, with a dip over each eddy."""
    south, east = row / (ROWS - 1), column / (COLUMNS - 1)
    level = 1.86 + 0.09 * south * south + 0.04 * east * (1 - south)
    for middle_row, middle_column, depth, width in EDDIES:
        distance = (row - middle_row) ** 2 + (column - middle_column) ** 2
        level -= depth / (1 + distance / (width * width))
    return level


def noise():
    """Numbers from -0.002 to 0.002, the same in every run."""
    state = 20240229
    while True:
        state = (state * 1103515245 + 12345) % 2**31
        yield 0.004 * (state / 2**31) - 0.002


def cells():
    """The bytes of each cell, row by row."""
    ripple = noise()
    for row in range(ROWS):
        for column in range(COLUMNS):
            if is_land(row, column):
                yield struct.pack("<I", LAND)
            elif is_quay_wall(row, column):
                yield struct.pack("<I", QUAY_WALL)
            else:
                yield struct.pack("<f", smooth_level(row, column) + next(ripple))


if __name__ == "__main__":
    (pathlib.Path(__file__).parent / "harbour.f32").write_bytes(b"".join(cells()))
