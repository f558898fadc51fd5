"""A reader and a writer of packed streams, written from FORMAT.md alone;
what concerns summaries, groups of 128 and halves to even was added by others,
who wrote that page or had seen more than it.

Whole numbers only, standard library only. Names in quotes are the page's own.
No function raises on any level, bytes or index, and the work is bounded by
the bytes at hand and by the page's limits, never by what a header claims.
"""

from collections import namedtuple

LEVELS = (8, 9, 10, 11, 12, 13, 14)           # "knownLevel"
EVEN_LEVEL = 14                               # "halvesAt": writers from here on send halves to even
AWAY, TO_EVEN = HALVES = (0, 1)               # "knownHalves": the numbers of the rules
WIDTHS = (32, 64)                             # "knownWidth"
FRACTION_BITS = {32: 23, 64: 52}              # "fractionBits": m
BIN_OFFSET = {32: 150, 64: 1075}              # "binOf": j = k + this
ALLOWED_K = {32: (-150, 103), 64: (-1075, 970)}   # "allowedK"
MOST_VALUES = 1048576                         # "tooMany"
MOST_PARTS = 64
HIGH_ID = 1 << 31                             # "highId": from here up a part must be understood
HIGH_ID_NEED = 12                             # what a high id needs
CHUNK = 1024                                  # values in a chunk
SIZES = (32, 128)                             # "knownSize": codes in a group
LARGE_NUMBER = 256                            # added to the mode number in groups of 128
DETAIL_GROUPS = 32                            # what a chunk counts in the detail of 10, at both sizes
HEADER_BYTES = 48
ENTRY_BYTES = 12                              # one entry of the side table
SIDES_AT = 40                                 # the place of s
SUMMARY_ID = 1                                # "summaryId"

# The twelve numbers of the header, in order; `mode` is the mode number.
Header = namedtuple("Header", "major written needed width mode k n c table_at data_at s end")


# --- Mode 0: lossless -------------------------------------------------------

def folded(width, r):
    """r read in two's complement as x: 2x, or -2x-1 where x is negative ("folded")."""
    if r < 1 << (width - 1):
        return 2 * r
    return 2 * ((1 << width) - 1 - r) + 1


def unfolded(width, q):
    """The r that is folded to q ("unfolded")."""
    return q // 2 if q % 2 == 0 else (1 << width) - 1 - q // 2


def lossless_code(width, p):
    """Code of the pattern p ("losslessCode")."""
    half, size = 1 << (width - 1), 1 << width
    unit = 1 << (FRACTION_BITS[width] + 1)
    r = (p % half) * 2 + p // half            # 1. "rotated"
    if r // unit != 0:                        # 2. "stepped"
        r = (r - half) % size
        if r // unit == 0 or r >= half:       # "lowered"
            r = (r - unit) % size
    return folded(width, r)                   # 3.


def lossless_restored(width, q):
    """Pattern of the code q ("losslessRestored")."""
    half, size = 1 << (width - 1), 1 << width
    unit = 1 << (FRACTION_BITS[width] + 1)
    r = unfolded(width, q)                    # 1.
    if r // unit != 0:                        # 2. "unstepped": the field is looked at once
        if r >= half:
            r = (r + unit) % size             # "raised"
        r = (r + half) % size
    return r // 2 + (r % 2) * half            # 3. "unrotated"


# --- Mode 1: within a tolerance ---------------------------------------------

def halves_at(level):
    """The rule for halves of a writer's level ("halvesAt")."""
    return TO_EVEN if level >= EVEN_LEVEL else AWAY


def rounded_magnitude(m, halves, j, o):
    """The u of an ordinal below that of T: magnitude / E, a half going by the rule ("near")."""
    e, f = o >> m, o % (1 << m)
    if e == 0:
        a, r = f, j
    else:
        a, r = (1 << m) + f, j - e + 1
    if r == 0:
        return a
    if r > m + 1:
        return 0
    t = a + (1 << (r - 1))
    v = t >> r                                # "upper"
    if t % (1 << r) == 0 and halves == TO_EVEN:   # "halfway"
        v -= v % 2
    return v


def code_within(width, halves, k, p):
    """Code of the pattern p by a rule for halves ("toleranceCode")."""
    m, j = FRACTION_BITS[width], k + BIN_OFFSET[width]
    sign, o = p >> (width - 1), p % (1 << (width - 1))
    if o >= (j + 1) << m:                     # from T on: kept as it is
        u = o - (j << m)
    else:
        u = rounded_magnitude(m, halves, j, o)
    return 2 * u + sign


def allowed_k(width, k):
    low, high = ALLOWED_K[width]              # "allowedK"
    return low <= k <= high


def tolerance_code(width, halves, k, p):
    """The solver's function. Gives (0, 0, code), or (2, 0, None) ("codeAnswer")."""
    if halves not in HALVES or not allowed_k(width, k):
        return 2, 0, None
    return 0, 0, code_within(width, halves, k, p)


def ordinal_of_multiple(m, j, u):
    """The ordinal of u * E, for u below 2^m ("ordinalOf")."""
    if u == 0:
        return 0
    b = u.bit_length()
    if b + j <= m + 1:
        return u << j
    return ((b + j - m - 1) << m) + (u << (m + 1 - b))


def tolerance_restored(width, k, q):
    """Pattern of the code q, whose u is at most the largest u ("toleranceRestored")."""
    m, j = FRACTION_BITS[width], k + BIN_OFFSET[width]
    sign, u = q % 2, q // 2
    if u >= 1 << m:
        o = u + (j << m)
    else:
        o = ordinal_of_multiple(m, j, u)
    return o + (sign << (width - 1))


def largest_u(width, k):
    """No pattern has a larger u, and a reader refuses it ("largestU")."""
    return (1 << (width - 1)) - 1 - ((k + BIN_OFFSET[width]) << FRACTION_BITS[width])


# --- Mode 2: lossless, by differences ---------------------------------------

def difference_codes(width, patterns):
    """Codes of a chunk's patterns, the first behind the pattern 0 ("differenceCodes")."""
    return [folded(width, (p - b) % (1 << width)) for b, p in zip([0] + patterns, patterns)]


def running_sums(width, codes):
    """Patterns of a chunk's codes, from its first code on ("runningSums")."""
    patterns, b = [], 0
    for q in codes:
        b = (b + unfolded(width, q)) % (1 << width)
        patterns.append(b)
    return patterns


# --- All modes --------------------------------------------------------------

def codes_of(width, mode, k, halves, patterns):
    """The codes of a chunk's patterns, in mode 1 by a rule for halves."""
    if mode == 0:
        return [lossless_code(width, p) for p in patterns]
    if mode == 1:
        return [code_within(width, halves, k, p) for p in patterns]
    return difference_codes(width, patterns)


def restored(width, mode, k, codes):
    """The patterns of a chunk's codes, from its first code on."""
    if mode == 0:
        return [lossless_restored(width, q) for q in codes]
    if mode == 1:
        return [tolerance_restored(width, k, q) for q in codes]
    return running_sums(width, codes)


def mode_number(mode, size):
    """The mode number of the header ("modeNumber")."""
    return mode + LARGE_NUMBER if size == 128 else mode


def said(number):
    """The mode and the group size that a mode number says ("saidMode", "saidSize")."""
    return (number, 32) if number < LARGE_NUMBER else (number - LARGE_NUMBER, 128)


def allowed_setting(width, mode, k, size):
    """"allowedSetting", with the width's own rule."""
    if width not in WIDTHS or size not in SIZES:
        return False
    if mode in (0, 2):
        return k == 0
    return mode == 1 and allowed_k(width, k)


def need(width, mode, size):
    """That of width, mode and group size: 13 in groups of 128, else 11 in mode 2, else 10 at width 64,
    else 9 in mode 1, else 8 ("need")."""
    if size == 128:
        return 13
    if mode == 2:
        return 11
    if width == 64:
        return 10
    return 9 if mode == 1 else 8


def chunks_in(n):
    return (n + CHUNK - 1) // CHUNK


# --- Header and tables ------------------------------------------------------

def word(data, at):
    """32 bits, lowest byte first, without a sign."""
    return int.from_bytes(data[at:at + 4], "little")


def header_of(data):
    """The header's numbers; k alone is read in two's complement ("kOf")."""
    h = Header(*(word(data, at) for at in range(0, HEADER_BYTES, 4)))
    return h._replace(k=h.k - (1 << 32)) if h.k >= 1 << 31 else h


def need_right(h):
    """Needed not below the need of width, mode and group size, written not below needed ("needRight").

    Whether needed is above the need of the stream is not asked here: the ids are not known yet.
    """
    return need(h.width, *said(h.mode)) <= h.needed <= h.written


def setting_right(h):
    """Refusal 8 at its first place, first half: width, mode number, k, needed and written."""
    mode, size = said(h.mode)
    return allowed_setting(h.width, mode, h.k, size) and need_right(h)


def layout_right(h, count):
    """Refusal 8 at its first place, second half: n, c, both places, s and end."""
    data_at = HEADER_BYTES + 4 * h.c
    return (h.n <= MOST_VALUES
            and h.c == chunks_in(h.n)
            and h.table_at == HEADER_BYTES
            and h.data_at == data_at
            and h.s <= MOST_PARTS
            and data_at <= h.end <= count)


def opening(level, data):
    """Tests 1 5 6 7 8: a refusal or None, then the header or None ("openingRows")."""
    if level not in LEVELS:
        return (1, 0), None
    if len(data) < HEADER_BYTES:
        return (5, 0), None
    h = header_of(data)
    if h.major != 1:
        return (6, 0), None
    if h.needed > level:                      # whatever else the header says
        return (7, h.needed), None
    if not (setting_right(h) and layout_right(h, len(data))):
        return (8, 0), None
    return None, h


def start_at(h, data, i):
    """Start of the chunk i, from the place of the data; c gives the data's length."""
    return h.end - h.data_at if i == h.c else word(data, HEADER_BYTES + 4 * i)


def chunk_table_right(h, data):
    """First start 0, each greater than the one before, the last below the length.

    With no chunks the one number is the data's length, which must be 0 then.
    """
    starts = [start_at(h, data, i) for i in range(h.c + 1)]
    return starts[0] == 0 and all(a < b for a, b in zip(starts, starts[1:]))


def side_table_right(h, data):
    """Ids increase strictly; parts stand one by one and end where the bytes end."""
    place = h.end + ENTRY_BYTES * h.s
    if place > len(data):                     # the table lies within the bytes
        return False
    last_id = -1                              # the first id may be any number, 0 too
    for at in range(h.end, place, ENTRY_BYTES):
        part_id, part_at, length = word(data, at), word(data, at + 4), word(data, at + 8)
        if part_id <= last_id or part_at != place:
            return False
        last_id, place = part_id, place + length
    return place == len(data)


def tables_refusal(h, data):
    """Test 9: both tables, whole, in every reader."""
    if chunk_table_right(h, data) and side_table_right(h, data):
        return None
    return (9, 0)


def high_ids(h, data):
    """The ids from 2^31 up, in order, of a side table that is right ("highId")."""
    ids = (word(data, h.end + ENTRY_BYTES * i) for i in range(h.s))
    return [part_id for part_id in ids if part_id >= HIGH_ID]


def stream_need(h, high):
    """The need of the stream: that of width, mode and group size, with a high id 12 at least ("streamNeed")."""
    return max(need(h.width, *said(h.mode)), HIGH_ID_NEED if high else 0)


def sides_refusal(h, data):
    """Tests 8 and 15 behind the tables, in every reader, probe too ("sideRows").

    8 again: needed is not the need of the stream ("needRow"). Only where it is right, 15
    follows, with the first high id ("idRow"): no high id is defined yet.
    """
    high = high_ids(h, data)
    if h.needed != stream_need(h, high):
        return (8, 0)
    if high:
        return (15, high[0])
    return None


def behind_opening(h, data):
    """Tests 9 8 15: both tables, and what they say of the need and of the ids."""
    return tables_refusal(h, data) or sides_refusal(h, data)


# --- Groups and chunks ------------------------------------------------------

def group_codes(h, chunk, at, g):
    """The g codes of the group at the place `at` in its chunk, and the place behind it.

    None when the group is not good; the numbers are those of the page's list.
    """
    if at >= len(chunk) or chunk[at] > h.width:              # 1
        return None
    w = chunk[at]
    behind = at + 1 + (w * g + 7) // 8
    if behind > len(chunk):                                  # 2
        return None
    bits = int.from_bytes(chunk[at + 1:behind], "little")
    mask = (1 << w) - 1
    codes = [(bits >> shift) & mask for shift in range(0, w * g, w)] if w else [0] * g
    largest = max(codes)
    if largest.bit_length() != w:                            # 3
        return None
    if bits >> (w * g) != 0:                                 # 4
        return None
    if said(h.mode)[0] == 1 and largest // 2 > largest_u(h.width, h.k):   # 5
        return None
    return codes, behind


def groups_codes(h, chunk, count):
    """The first bad group of a chunk of so many values or None, then all codes or None.

    Where bytes are left over behind the last group, that one is bad ("firstFault").
    """
    codes, at, size = [], 0, said(h.mode)[1]
    for first in range(0, count, size):
        group = group_codes(h, chunk, at, min(size, count - first))
        if group is None:
            return first // size, None
        codes += group[0]
        at = group[1]
    if at < len(chunk):
        return (count - 1) // size, None
    return None, codes


def chunk_codes(h, data, i):
    """Test 10 of the chunk i: its refusal or None, then all its codes or None ("chunkAnswer").

    The detail names the chunk and its first bad group ("faultDetail").
    """
    chunk = data[h.data_at + start_at(h, data, i):h.data_at + start_at(h, data, i + 1)]
    bad, codes = groups_codes(h, chunk, min(CHUNK, h.n - CHUNK * i))
    if bad is not None:
        return (10, DETAIL_GROUPS * i + bad), None
    return None, codes


def all_codes(h, data):
    """Test 10 of check and unpack: the refusal of the first bad chunk, or the codes of each."""
    chunks = []
    for i in range(h.c):
        refusal, codes = chunk_codes(h, data, i)
        if refusal is not None:
            return refusal, None
        chunks.append(codes)
    return None, chunks


# --- The readers ------------------------------------------------------------

def checked(level, data):
    """Tests 1 5 6 7 8 9 8 15 10: a refusal or None, then the header and the codes of each chunk."""
    refusal, h = opening(level, data)
    if refusal is None:
        refusal = behind_opening(h, data)
    if refusal is not None:
        return refusal, None, None
    refusal, chunks = all_codes(h, data)
    return refusal, h, chunks


def check(level, data):
    """Order 1 5 6 7 8 9 8 15 10. Gives (0, n), or the refusal and its detail."""
    refusal, h, _ = checked(level, data)
    return (0, h.n) if refusal is None else refusal


def unpack(width, level, data, room):
    """Order 1 5 6 7 8 14 4 9 8 15 10. Gives (0, n, patterns), or (number, detail, None)."""
    refusal, h = opening(level, data)
    if refusal is None and h.width != width:
        refusal = (14, 0)
    if refusal is None and room < h.n:
        refusal = (4, h.n)
    if refusal is None:
        refusal = behind_opening(h, data)
    if refusal is None:
        refusal, chunks = all_codes(h, data)
    if refusal is not None:
        return refusal + (None,)
    return 0, h.n, [p for codes in chunks for p in restored(width, said(h.mode)[0], h.k, codes)]


def kind_of(width, p):
    """0 a finite number, 1 an infinity, 2 a not-a-number ("told")."""
    m = FRACTION_BITS[width]
    infinity = (1 << (width - 1)) - (1 << m)  # 7F800000 or 7FF0000000000000
    o = p % (1 << (width - 1))
    return 0 if o < infinity else 1 if o == infinity else 2


def probe(width, level, data, index):
    """Order 1 5 6 7 8 14 11 9 8 15 10. Gives (0, kind, pattern), or (number, detail, None).

    By 10 it tests its own chunk alone, but that one whole: the detail has the chunk's
    first bad group, whichever group the index lies in.
    """
    refusal, h = opening(level, data)
    if refusal is None and h.width != width:
        refusal = (14, 0)
    if refusal is None and index >= h.n:
        refusal = (11, 0)
    if refusal is None:
        refusal = behind_opening(h, data)
    if refusal is None:
        refusal, codes = chunk_codes(h, data, index // CHUNK)
    if refusal is not None:
        return refusal + (None,)
    p = restored(width, said(h.mode)[0], h.k, codes[:index % CHUNK + 1])[-1]
    return 0, kind_of(width, p), p


# --- The summary ------------------------------------------------------------

def place(width, p):
    """The place of a pattern in the order of a summary ("rank")."""
    half = 1 << (width - 1)
    return half + p if p < half else 2 * half - 1 - p


def at_least(width, x, p):
    """The value p is at least x, as IEEE 754 compares ("atLeast")."""
    if kind_of(width, x) == 2 or kind_of(width, p) == 2:
        return False
    zeros = (0, 1 << (width - 1))
    return place(width, p) >= place(width, x) or (x in zeros and p in zeros)


def entry_length(width):
    return 4 + 2 * (width // 8)               # "entryLength"


def summary_entry(width, values):
    """What a summary has of a chunk's restored values ("entryBytes")."""
    others = [p for p in values if kind_of(width, p) != 2]
    ends = [end(set(others), key=lambda p: place(width, p), default=0) for end in (min, max)]
    return ((len(values) - len(others)).to_bytes(4, "little")
            + b"".join(p.to_bytes(width // 8, "little") for p in ends))


def summary(h, chunks):
    """The true summary, of the codes of each chunk ("summary")."""
    mode = said(h.mode)[0]
    return b"".join(summary_entry(h.width, restored(h.width, mode, h.k, codes)) for codes in chunks)


def side_part(h, data, wanted):
    """The bytes of the side part with an id or None, of a side table that is right."""
    for at in range(h.end, h.end + ENTRY_BYTES * h.s, ENTRY_BYTES):
        part_id, part_at, length = word(data, at), word(data, at + 4), word(data, at + 8)
        if part_id == wanted:
            return data[part_at:part_at + length]
    return None


def summary_refusal(h, data, chunks):
    """Test 17: no side part 1, or one that is not the true summary, byte for byte ("summaryTrue")."""
    part = side_part(h, data, SUMMARY_ID)
    return None if part is not None and part == summary(h, chunks) else (17, 0)


def add_summary(level, data, room):
    """Order 1 5 6 7 8 9 8 15 10 16 4. Gives (0, bytes written, bytes), or (number, detail, None)."""
    refusal, h, chunks = checked(level, data)
    if refusal is None and h.s != 0:
        refusal = (16, 0)
    if refusal is not None:
        return refusal + (None,)
    part = summary(h, chunks)
    copy = (data[:SIDES_AT] + spell(1) + data[SIDES_AT + 4:]
            + spell(SUMMARY_ID) + spell(h.end + ENTRY_BYTES) + spell(len(part)) + part)
    if room < len(copy):
        return 4, len(copy), None
    return 0, len(copy), copy


def test_summary(level, data):
    """Order 1 5 6 7 8 9 8 15 10 17. Gives (0, n), or the refusal and its detail."""
    refusal, h, chunks = checked(level, data)
    if refusal is None:
        refusal = summary_refusal(h, data, chunks)
    return (0, h.n) if refusal is None else refusal


def listed(h, x, part):
    """The chunks that hold some value at least x, by a summary that is true.

    A chunk is listed when not all its values are not-a-numbers and its largest is at least x.
    """
    size, chunks = entry_length(h.width), []
    for i in range(h.c):
        entry = part[size * i:size * (i + 1)]
        largest = int.from_bytes(entry[4 + h.width // 8:], "little")
        if word(entry, 0) < min(CHUNK, h.n - CHUNK * i) and at_least(h.width, x, largest):
            chunks.append(i)
    return chunks


def chunks_from(width, level, x, data, room):
    """Order 1 2 5 6 7 8 14 9 8 15 10 17 4. Gives (0, count, chunks), or (number, detail, None)."""
    if level in LEVELS and kind_of(width, x) == 2:
        return 2, 0, None
    refusal, h = opening(level, data)
    if refusal is None and h.width != width:
        refusal = (14, 0)
    if refusal is None:
        refusal, h, chunks = checked(level, data)
    if refusal is None:
        refusal = summary_refusal(h, data, chunks)
    if refusal is not None:
        return refusal + (None,)
    found = listed(h, x, side_part(h, data, SUMMARY_ID))
    if room < len(found):
        return 4, len(found), None
    return 0, len(found), found


# --- The writer -------------------------------------------------------------

def spell(x):
    """32 bits, lowest byte first."""
    return (x % (1 << 32)).to_bytes(4, "little")


def group_bytes(codes):
    """The byte w, the codes of w bits each, then zero bits to the next byte."""
    w = max(codes).bit_length()
    bits = 0
    for i, q in enumerate(codes):
        bits |= q << (i * w)
    return bytes([w]) + bits.to_bytes((w * len(codes) + 7) // 8, "little")


def chunk_bytes(size, codes):
    return b"".join(group_bytes(codes[i:i + size]) for i in range(0, len(codes), size))


def stream(width, level, mode, k, size, values):
    """The only stream of a level, an allowed setting and the values ("stream")."""
    chunks = [chunk_bytes(size, codes_of(width, mode, k, halves_at(level), values[i:i + CHUNK]))
              for i in range(0, len(values), CHUNK)]
    starts, total = [], 0
    for chunk in chunks:
        starts.append(total)
        total += len(chunk)
    c = len(chunks)
    data_at = HEADER_BYTES + 4 * c
    numbers = Header(major=1, written=level, needed=need(width, mode, size), width=width,
                     mode=mode_number(mode, size), k=k, n=len(values), c=c, table_at=HEADER_BYTES,
                     data_at=data_at, s=0, end=data_at + total)
    return b"".join(map(spell, numbers)) + b"".join(map(spell, starts)) + b"".join(chunks)


def writer_refusal(width, level, mode, k, size, values):
    """Tests 1 2 3 of pack and length."""
    if level not in LEVELS:
        return (1, 0)
    if not allowed_setting(width, mode, k, size) or need(width, mode, size) > level:
        return (2, 0)
    if len(values) > MOST_VALUES:
        return (3, 0)
    return None


def pack(width, level, mode, k, size, values, room):
    """Order 1 2 3 4. Gives (0, bytes written, bytes), or (number, detail, None)."""
    refusal = writer_refusal(width, level, mode, k, size, values)
    if refusal is not None:
        return refusal + (None,)
    data = stream(width, level, mode, k, size, values)
    if room < len(data):
        return 4, len(data), None
    return 0, len(data), data


def length(width, level, mode, k, size, values):
    """Order 1 2 3. Gives (0, the bytes that pack would write), or the refusal."""
    refusal = writer_refusal(width, level, mode, k, size, values)
    if refusal is not None:
        return refusal
    return 0, len(stream(width, level, mode, k, size, values))


def bound(width, t):
    """Order 2 12 13. Gives (0, the largest allowed k with 2^k not above t), or the refusal."""
    if width not in WIDTHS:
        return 2, 0
    if t == 0 or t >= 0x7FF0000000000000:
        return 12, 0
    e = t >> 52
    x = e - 1023 if e != 0 else t.bit_length() - 1075
    low, high = ALLOWED_K[width]
    if x < low:
        return 13, 0
    return 0, min(x, high)
