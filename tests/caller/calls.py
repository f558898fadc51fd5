#!/usr/bin/env python3
"""Every method of Caller once, and its errors.

    tests/caller/calls.py COMMAND...         the command that starts caller.c's program
"""

import sys

from caller import Caller, CallerError

# The example of document 01: three values of width 32, lossless, at level 8.
VALUES = [0x3F800000, 0x3F800000, 0x3F800001]


def good_calls(library):
    number, length = library.length(32, 8, 0, 0, 32, VALUES)
    assert number == 0
    done = library.pack(32, 8, 0, 0, 32, VALUES, length + 3)
    stream = done[2]
    assert done[:2] == (0, length) and len(stream) == length
    assert library.pack(32, 8, 0, 0, 32, VALUES, length - 1) == (4, length, None)
    assert library.check(8, stream) == (0, 3) and library.check(7, stream) == (1, 0)
    assert library.unpack(32, 8, stream, 3) == (0, 3, VALUES)
    assert library.unpack(32, 8, stream, 2) == (4, 3, None) and library.unpack(64, 10, stream, 3) == (14, 0, None)
    assert library.probe(32, 8, stream, 2) == (0, 0, VALUES[2]) and library.probe(32, 8, stream, 3) == (11, 0, None)
    doubles = [0x7FF0 << 48, 1, (1 << 64) - 1]
    stream = library.pack(64, 10, 1, -20, 32, doubles, 100)[2]
    assert library.unpack(64, 10, stream, 3) == (0, 3, [0x7FF0 << 48, 0, (1 << 64) - 1])
    assert library.probe(64, 10, stream, 2) == (0, 2, (1 << 64) - 1)
    groups_of_128(library)
    summaries(library)
    halves(library)
    assert library.bound(32, 0x3EB0 << 48) == (0, -20) and library.bound(64, 0x4000 << 48) == (0, 1) and library.bound(16, 1) == (2, 0)


def groups_of_128(library):
    """1,024 zeros are 8 bytes of data in groups of 128, which need 13; no other size is taken but 32."""
    zeros = [0] * 1024
    assert library.length(32, 13, 0, 0, 128, zeros) == (0, 60) and library.length(32, 13, 0, 0, 32, zeros) == (0, 84)
    assert library.length(32, 12, 0, 0, 128, zeros) == (2, 0) and library.length(32, 13, 0, 0, 64, zeros) == (2, 0)
    assert library.length(32, 13, 256, 0, 128, zeros) == (2, 0)
    number, length, stream = library.pack(64, 13, 2, 0, 128, [7] * 130, 200)
    assert (number, length) == (0, 48 + 4 + 1 + 64 + 1) and stream[16:18] == b"\x02\x01"
    assert library.check(13, stream) == (0, 130) and library.check(12, stream) == (7, 13)
    assert library.unpack(64, 13, stream, 130) == (0, 130, [7] * 130) and library.probe(64, 13, stream, 129) == (0, 0, 7)


def summaries(library):
    """1,025 doubles in mode 2: a chunk of 1.0, and one of -0 alone."""
    stream = library.pack(64, 11, 2, 0, 32, [0x3FF0 << 48] * 1024 + [1 << 63], 20000)[2]
    length = len(stream) + 12 + 2 * 20
    done = library.add_summary(11, stream, length + 3)
    copy = done[2]
    assert done[:2] == (0, length) and len(copy) == length and copy[48:len(stream)] == stream[48:]
    assert library.add_summary(11, stream, length - 1) == (4, length, None) and library.add_summary(11, copy, length) == (16, 0, None)
    assert library.test_summary(11, copy) == (0, 1025) and library.test_summary(11, stream) == (17, 0)
    assert library.test_summary(10, copy) == (7, 11)
    assert library.chunks_from(64, 12, 0, copy, 2) == (0, 2, [0, 1]) and library.chunks_from(64, 12, 1, copy, 5) == (0, 1, [0])
    assert library.chunks_from(64, 12, 0, copy, 1) == (4, 2, None) and library.chunks_from(64, 12, 0x7FF0 << 48, copy, 0) == (0, 0, [])
    assert library.chunks_from(64, 12, (1 << 64) - 1, copy, 2) == (2, 0, None) and library.chunks_from(32, 12, 0, copy, 2) == (14, 0, None)


def halves(library):
    """Within 2^-2, 0.25 is the half of one bin: its code is 2 away from zero and 0 to even, and -0.75 is 5 by both rules."""
    for rule, code in ((0, 2), (1, 0)):
        assert library.tolerance_code(32, rule, -2, 0x3E800000) == (0, 0, code)
        assert library.tolerance_code(64, rule, -2, 0x3FD0 << 48) == (0, 0, code)
        assert library.tolerance_code(32, rule, -2, 0xBF400000) == (0, 0, 5)
    assert library.tolerance_code(32, 2, -2, 0) == (2, 0, None) and library.tolerance_code(64, 1, 971, 0) == (2, 0, None)
    for level, data in ((9, b"\x03\x2a"), (13, b"\x03\x2a"), (14, b"\x03\x28")):
        assert library.length(32, level, 1, -2, 32, [0x3E800000, 0xBF400000]) == (0, 54)
        number, length, stream = library.pack(32, level, 1, -2, 32, [0x3E800000, 0xBF400000], 54)
        assert (number, length) == (0, 54) and stream[4:12] == bytes([level, 0, 0, 0, 9, 0, 0, 0]) and stream[52:] == data
    assert library.unpack(32, 9, stream, 2) == (0, 2, [0, 0xBF800000]) and library.check(15, stream) == (1, 0)
    assert library.length(32, 15, 1, -2, 32, []) == (1, 0)


def fails(action):
    try:
        action()
    except CallerError:
        return True
    return False


def main():
    command = sys.argv[1:]
    with Caller(command) as library:
        good_calls(library)
    # At what is no call the program ends, and no answer is made up.
    library = Caller(command)
    assert fails(lambda: library.call("no_function", b"")) and fails(library.close)
    # Programs that answer with too little, too much, or a buffer of another length.
    for said in ("head -c 15 /dev/zero", "head -c 17 /dev/zero; cat >/dev/null", "head -c 88 >/dev/null; printf 0123456789abcdef"):
        library = Caller(["sh", "-c", said])
        assert fails(lambda: (library.bound(32, 1), library.close())), said


if __name__ == "__main__":
    main()
