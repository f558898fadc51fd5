"""The library behind a pipe, for Python: caller.c, the program at the other end, has the protocol.

    with Caller(["target/caller/caller"]) as library:       the command that starts it, by an emulator where that is needed
        library.check(10, stream)

An answer is the refusal number, or 0, and the detail of the refusal or what success answers; a call that writes has a
third element: what was written, or None where the call was refused. Whatever is not as the protocol or the header of
the library has it, as a write outside the room or by a refused call, raises a CallerError.
"""

import struct
import subprocess

MARGIN = 64
HEAD_OF_CALL = struct.Struct("<24sIIiIII5Q")
HEAD_OF_ANSWER = struct.Struct("<QQ")


class CallerError(Exception):
    pass


class Caller:
    def __init__(self, command):
        self.program = subprocess.Popen(command, stdin=subprocess.PIPE, stdout=subprocess.PIPE, bufsize=1 << 16)

    # ---- the functions

    def check(self, level, data):
        return parted(self.call("check", data, level=level))

    def unpack(self, width, level, data, room):
        result, out = self.call_lent(f"unpack{width}", data, width // 8, room, lambda answer: answer, level=level)
        return *parted(result), None if out is None else list_of(width, out)

    def probe(self, width, level, data, index):
        result, out = self.call_lent(f"probe{width}", data, width // 8, 1, lambda kind: 1, level=level, number=index)
        return *parted(result), None if out is None else int.from_bytes(out, "little")

    def pack(self, width, level, mode, k, group, values, room):
        result, out = self.call_lent(f"pack{width}", list_bytes(width, values), 1, room, lambda answer: answer,
                                     count=len(values), level=level, mode=mode, k=k, group=group)
        return *parted(result), out

    def length(self, width, level, mode, k, group, values):
        return parted(self.call(f"length{width}", list_bytes(width, values), count=len(values), level=level, mode=mode, k=k, group=group))

    def add_summary(self, level, data, room):
        result, out = self.call_lent("add_summary", data, 1, room, lambda answer: answer, level=level)
        return *parted(result), out

    def test_summary(self, level, data):
        return parted(self.call("test_summary", data, level=level))

    def chunks_from(self, width, level, x, data, room):
        """Chunk numbers, which have 32 bits at both widths."""
        result, out = self.call_lent(f"chunks_from{width}", data, 4, room, lambda answer: answer, level=level, number=x)
        return *parted(result), None if out is None else list_of(32, out)

    def bound(self, width, tolerance):
        """On success the second is k, which may be negative."""
        number, detail = parted(self.call("bound", b"", width=width, number=tolerance))
        return number, detail - 2**32 if number == 0 and detail >= 2**31 else detail

    def tolerance_code(self, width, halves, k, pattern):
        """By the rule for halves with this number: the third is the code."""
        result, out = self.call_lent(f"tolerance_code{width}", b"", width // 8, 1, lambda done: 1, halves=halves, k=k, number=pattern)
        return *parted(result), None if out is None else int.from_bytes(out, "little")

    # ---- what is lent

    def call_lent(self, name, given, size, room, written, **numbers):
        """A call that is lent a room of so many elements: its result, and the bytes it wrote or None where it was
        refused. `written` has the count of elements that an answer says were written."""
        before = marks((room + 2 * MARGIN) * size)
        result, after = self.exchange(name, given, before, before=MARGIN, room=room, behind=MARGIN, **numbers)
        start = MARGIN * size
        end = start + (written(result & 0xFFFFFFFF) * size if result >> 32 == 0 else 0)
        if end > start + room * size or after[:start] != before[:start] or after[end:] != before[end:]:
            raise CallerError(f"{name} wrote where it must not")
        return result, after[start:end] if result >> 32 == 0 else None

    def call(self, name, given, **numbers):
        return self.exchange(name, given, b"", **numbers)[0]

    # ---- the pipe

    def exchange(self, name, given, buffer, level=0, mode=0, k=0, group=0, width=0, halves=0, number=0, count=None,
                 before=0, room=0, behind=0):
        """The result, and the buffer as it is after the call. Without a count the input is bytes."""
        count = len(given) if count is None else count
        head = HEAD_OF_CALL.pack(name.encode(), level, mode, k, group, width, halves, number, count, before, room, behind)
        try:
            self.program.stdin.write(head + given + buffer)
            self.program.stdin.flush()
        except OSError as error:
            raise CallerError(f"the call of {name} was not taken: {error}") from error
        result, length = HEAD_OF_ANSWER.unpack(self.take(HEAD_OF_ANSWER.size))
        if length not in (0, len(buffer)):
            raise CallerError(f"{length} bytes of a buffer of {len(buffer)} came back")
        return result, self.take(length) if length else buffer

    def take(self, length):
        taken = self.program.stdout.read(length)
        if len(taken) != length:
            raise CallerError("the program ended within an answer")
        return taken

    # ---- the end

    def close(self):
        """Ends the program, which must have nothing left to say and end well."""
        rest = self.end()
        if rest:
            raise CallerError("the program said more than it was asked")
        if self.program.returncode != 0:
            raise CallerError(f"the program ended with status {self.program.returncode}")

    def end(self):
        """What is left of the answers, a byte of it at most. The pipes are read and closed as they were written to: by the
        files, which may hold a part already."""
        try:
            self.program.stdin.close()
        except OSError:
            pass  # it has ended before, as its status says
        rest = self.program.stdout.read(1)
        self.program.stdout.close()
        self.program.wait()
        return rest

    def __enter__(self):
        return self

    def __exit__(self, kind, *_):
        if kind is None:
            self.close()
        else:
            self.program.kill()
            self.end()


def parted(result):
    return result >> 32, result & 0xFFFFFFFF


def letter(width):
    return {32: "I", 64: "Q"}[width]


def list_bytes(width, values):
    return struct.pack(f"<{len(values)}{letter(width)}", *values)


def list_of(width, data):
    return list(struct.unpack(f"<{len(data) * 8 // width}{letter(width)}", data))


def marks(length):
    """Bytes that differ from place to place, by which a write is seen."""
    return (bytes(range(1, 252)) * (length // 251 + 1))[:length]
