"""Loads the shared library that the argument names, as a program of another language does, and calls it. A line for each check that fails; the last line is
'N passed, M failed'. tests/install.sh runs it."""

import ctypes
import sys
from ctypes import POINTER, c_char_p, c_size_t, c_uint8, c_uint32


class Block(ctypes.Structure):
    _fields_ = [("refusal", c_uint8), ("kind", c_uint8), ("closed", c_uint8), ("name", c_uint8), ("stop", c_size_t), ("closer", c_size_t)]


class Shown(ctypes.Structure):
    _fields_ = [("refusal", c_uint8), ("length", c_size_t), ("pieces", c_size_t)]


class Spans(ctypes.Structure):
    _fields_ = [("refusal", c_uint8), ("count", c_size_t)]


class Written(ctypes.Structure):
    _fields_ = [("refusal", c_uint8), ("length", c_size_t)]


class Part(ctypes.Structure):
    _fields_ = [("start", c_size_t), ("length", c_size_t)]


library = ctypes.CDLL(sys.argv[1])
library.foringamo_count_lines.argtypes = [c_char_p, c_size_t]
library.foringamo_count_lines.restype = c_size_t
for function in library.foringamo_block_scan, library.foringamo_standard_block_scan:
    function.argtypes = [c_char_p, c_size_t, c_char_p, c_size_t, c_size_t]
    function.restype = Block
for function in library.foringamo_find, library.foringamo_standard_find:
    function.argtypes = [c_char_p, c_size_t, c_char_p, c_size_t, POINTER(c_uint32), c_size_t]
    function.restype = Spans
library.foringamo_show.argtypes = [c_char_p, c_size_t, POINTER(c_uint32), c_size_t, c_char_p, c_size_t]
library.foringamo_show.restype = Written
library.foringamo_stretch.argtypes = [c_char_p, c_size_t, POINTER(c_uint32), c_size_t, c_size_t]
library.foringamo_stretch.restype = Part
for function in library.foringamo_withhold, library.foringamo_standard_withhold:
    function.argtypes = [c_char_p, c_size_t, c_char_p, c_size_t, POINTER(c_uint32), c_size_t, c_char_p, c_size_t]
    function.restype = Shown

# How many bytes a bulletin has at most.
LIMIT = 1000000

# What stands in each place of a list before.
FILL = 0xEEEEEEEE

passed = 0
failed = 0


def check(what, got, expected):
    global passed, failed
    if got == expected:
        passed += 1
    else:
        failed += 1
        print(f"{what}: {got}, not {expected}")


def lines(text):
    return library.foringamo_count_lines(text, len(text))


def block(bulletin, flags, index, scan=library.foringamo_block_scan):
    """The fields in their order."""
    got = scan(bulletin, len(bulletin), flags, len(flags), index)
    return got.refusal, got.kind, got.closed, got.name, got.stop, got.closer


def lend(numbers):
    return (c_uint32 * len(numbers))(*numbers)


def list_of(room):
    """A list with room for so many numbers."""
    return lend([FILL] * room)


def buffer_of(room):
    return ctypes.create_string_buffer(b"\xee" * room, room)


def split(numbers, length):
    """The numbers in front, and whether those past them are as before."""
    return list(numbers[:length]), numbers[length:] == [FILL] * (len(numbers) - length)


def split_bytes(out, length):
    """The bytes in front, and whether those past them are as before."""
    return out.raw[:length], out.raw[length:] == b"\xee" * (len(out) - length)


def find(bulletin, flags, room, function=library.foringamo_find):
    """The refusal, the numbers, and whether those past them are as before."""
    spans = list_of(room)
    got = function(bulletin, len(bulletin), flags, len(flags), spans, room)
    return (got.refusal, *split(spans, 3 * got.count))


def show(bulletin, numbers, room):
    """The refusal, the shown bytes, and whether those past them are as before."""
    out = buffer_of(room)
    got = library.foringamo_show(bulletin, len(bulletin), lend(numbers), len(numbers), out, room)
    return (got.refusal, *split_bytes(out, got.length))


def stretch(bulletin, numbers, number):
    """Its start and length."""
    got = library.foringamo_stretch(bulletin, len(bulletin), lend(numbers), len(numbers), number)
    return got.start, got.length


def withhold(bulletin, flags, list_room, room, function=library.foringamo_withhold):
    """The refusal, the numbers, the shown bytes, and whether both past them are as before."""
    spans, out = list_of(list_room), buffer_of(room)
    got = function(bulletin, len(bulletin), flags, len(flags), spans, list_room, out, room)
    numbers, list_kept = split(spans, 3 * got.pieces)
    shown, kept = split_bytes(out, got.length)
    return got.refusal, numbers, shown, list_kept and kept


for text, count in [(b"", 1), (b"a", 1), (b"a\nb", 2), (b"a\r\nb", 2), (b"a\rb", 2), (b"a\n\rb\r\n", 4), (b"\n" * (LIMIT + 1), LIMIT + 2)]:
    check(f"lines of {text[:20]!r}", lines(text), count)

bulletin = b"door <!-- x -->9\n<div>\nold\n\nok"
flags = bytes(lines(bulletin))
bars = [5, 15, 0, 17, 26, 1]
check("the added screen", withhold(bulletin, flags, 3 * len(bulletin), len(bulletin)), (0, bars, b"door 9\n\n\nok", True))
check("with room that just suffices", withhold(bulletin, flags, 6, 11), (0, bars, b"door 9\n\n\nok", True))
check("its spans", find(bulletin, flags, 3 * len(bulletin)), (0, bars, True))
check("its spans, with room that just suffices", find(bulletin, flags, 6), (0, bars, True))
check("shown beside them", show(bulletin, bars, len(bulletin)), (0, b"door 9\n\n\nok", True))
check("its stretches", [stretch(bulletin, bars, number) for number in range(3)], [(0, 5), (15, 2), (26, 4)])
for number in 3, 2**32, 2**64 - 1:
    check(f"no stretch {number}", stretch(bulletin, bars, number), (0, 0))
check("no span", (show(bulletin, [], 30), stretch(bulletin, [], 0)), ((0, bulletin, True), (0, 30)))
check("an empty stretch", stretch(b"<a><b>", [0, 3, 0, 3, 6, 0], 1), (3, 0))
for what, numbers in [
    ("not whole", bars[:5]),
    ("out of order", [17, 26, 1, 5, 15, 0]),
    ("overlapping", [5, 15, 0, 14, 26, 1]),
    ("past the end", [5, 15, 0, 17, 31, 1]),
    ("with a stop not above the start", [5, 5, 0, 17, 26, 1]),
    ("of a kind above 1", [5, 15, 0, 17, 26, 2]),
    ("of the greatest numbers", [2**32 - 1] * 3),
]:
    check(f"spans {what}", (show(bulletin, numbers, 30), stretch(bulletin, numbers, 1)), ((12, b"", True), (0, 0)))
check("a block of kind 6", block(bulletin, flags, 17), (0, 6, 0, 15, 26, 26))
check("a block of kind 1", block(b"<Script></style>", b"\0", 0), (0, 1, 1, 1, 16, 8))
check("no block", block(bulletin, flags, 0), (0, 0, 0, 255, 0, 0))
check("the index refused", block(bulletin, flags, 1), (4, 0, 0, 255, 0, 0))
check("a block as the Rust reads", block(b"<pre/>", b"\0", 0), (0, 7, 0, 255, 6, 6))
check("none by the standard", block(b"<pre/>", b"\0", 0, library.foringamo_standard_block_scan), (0, 0, 0, 255, 0, 0))
check("no tag as the Rust reads", withhold(b"a <b c=d/e>", b"\0", 33, 11), (0, [], b"a <b c=d/e>", True))
check("none is found", find(b"a <b c=d/e>", b"\0", 33), (0, [], True))
check("a tag by the standard", withhold(b"a <b c=d/e>", b"\0", 33, 11, library.foringamo_standard_withhold), (0, [2, 11, 0], b"a ", True))
check("it is found", find(b"a <b c=d/e>", b"\0", 33, library.foringamo_standard_find), (0, [2, 11, 0], True))
check("no room", withhold(bulletin, flags, 100, 10), (7, [], b"", True))
check("no room in the list", withhold(bulletin, flags, 5, 100), (7, [], b"", True))
check("no room in the list for finding", find(bulletin, flags, 5), (7, [], True))
check("no room for showing", show(bulletin, bars, 10), (7, b"", True))
check("one flag too many", withhold(bulletin, flags + b"\0", 100, 100), (2, [], b"", True))
check("one flag too many for finding", find(bulletin, flags + b"\0", 100), (2, [], True))
letters = b"a" * (LIMIT - 3)
refusal, numbers, shown, kept = withhold(letters + b"<b>", b"\0", 3 * LIMIT, LIMIT)
check("1,000,000 bytes", (refusal, numbers, shown == letters, kept), (0, [LIMIT - 3, LIMIT, 0], True, True))
check("1,000,001 bytes", withhold(b"a" + letters + b"<b>", b"\0", 3, LIMIT + 1), (1, [], b"", True))
check("1,000,001 bytes for finding", find(b"a" + letters + b"<b>", b"\0", 3), (1, [], True))
check("1,000,001 bytes for showing", show(b"a" + letters + b"<b>", [1, 0, 0], 0), (1, b"", True))

print(f"{passed} passed, {failed} failed")
sys.exit(failed != 0)
