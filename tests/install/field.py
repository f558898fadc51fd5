"""A small field through libgwizdorad.so, by ctypes: field.py LIBRARY."""
import ctypes
import struct
import sys
from ctypes import POINTER, c_char_p, c_int32, c_size_t, c_uint8, c_uint32, c_uint64

library = ctypes.CDLL(sys.argv[1])


def declared(name, answer, *parameters):
    function = getattr(library, name)
    function.restype, function.argtypes = answer, parameters
    return function


pack32 = declared("gwz_pack32", c_uint64, c_uint32, c_uint32, c_int32, c_uint32, POINTER(c_uint32), c_size_t, POINTER(c_uint8), c_size_t)
unpack32 = declared("gwz_unpack32", c_uint64, c_uint32, POINTER(c_uint8), c_size_t, POINTER(c_uint32), c_size_t)
check = declared("gwz_check", c_uint64, c_uint32, POINTER(c_uint8), c_size_t)
add_summary = declared("gwz_add_summary", c_uint64, c_uint32, POINTER(c_uint8), c_size_t, POINTER(c_uint8), c_size_t)
test_summary = declared("gwz_test_summary", c_uint64, c_uint32, POINTER(c_uint8), c_size_t)
chunks_from32 = declared("gwz_chunks_from32", c_uint64, c_uint32, c_uint32, POINTER(c_uint8), c_size_t, POINTER(c_uint32), c_size_t)
tolerance_code32 = declared("gwz_tolerance_code32", c_uint64, c_uint32, c_int32, c_uint32, POINTER(c_uint32))
bound = declared("gwz_bound", c_uint64, c_uint32, c_uint64)
refusal = declared("gwz_refusal", c_uint32, c_uint64)
answer = declared("gwz_answer", c_uint32, c_uint64)
exponent = declared("gwz_exponent", c_int32, c_uint64)
refusal_text = declared("gwz_refusal_text", c_char_p, c_uint32)
longest_stream = declared("gwz_longest_stream", c_size_t, c_uint32, c_uint32, c_size_t)
summary_bytes = declared("gwz_summary_bytes", c_size_t, c_uint32, c_size_t)
highest_level = declared("gwz_highest_level", c_uint32)()
version = declared("gwz_version", c_char_p)().decode()

failures = 0


def expect(what, holds):
    global failures
    if not holds:
        print("not so:", what)
        failures += 1


patterns = [0x00000000, 0x80000000, 0x3FC00000, 0x7FC00123, 0x7F800000, 0x00000001]
n = len(patterns)
cells, back = (c_uint32 * n)(*patterns), (c_uint32 * n)()
room = longest_stream(32, 32, n)
stream = (c_uint8 * room)()
result = pack32(highest_level, 0, 0, 32, cells, n, stream, room)
expect("packed", refusal(result) == 0)
length = answer(result)
expect("unpacked", unpack32(highest_level, stream, length, back, n) == n)
expect("the same bit for bit", list(back) == patterns)
result = check(highest_level, stream, length - 1)
expect("a cut stream is refused", refusal(result) == 8)
expect("with a sentence", b"cut" in refusal_text(refusal(result)))
copy_room, chunk = length + summary_bytes(32, n), (c_uint32 * 1)(9)
copy = (c_uint8 * copy_room)()
expect("a summary added", add_summary(highest_level, stream, length, copy, copy_room) == copy_room)
expect("and tested", test_summary(highest_level, copy, copy_room) == n)
expect("a chunk from 1.5 on", chunks_from32(highest_level, 0x3FC00000, copy, copy_room, chunk, 1) == 1 and chunk[0] == 0)
back = (c_uint32 * n)()
expect("in groups of 128", pack32(highest_level, 0, 0, 128, cells, n, stream, room) == length and stream[17] == 1)
expect("and unpacked", unpack32(highest_level, stream, length, back, n) == n and list(back) == patterns)
tolerance = struct.unpack("<Q", struct.pack("<d", 0.005))[0]
expect("the exponent of 0.005 is -8", exponent(bound(32, tolerance)) == -8)
code = (c_uint32 * 1)(9)
expect("half a bin away from zero", tolerance_code32(0, -2, 0x3E800000, code) == 0 and code[0] == 2)
expect("and to even", tolerance_code32(1, -2, 0x3E800000, code) == 0 and code[0] == 0)
print(f"{n} cells in {length} bytes and back, version {version}")
sys.exit(failures != 0)
