"""The keys of labels, from the library: of CIFTI's label tables, and of GIFTI label files.

The functions give numbers, 0 or a refusal, and raise nothing for a bad text. `GiftiLabels` is what the command shows of a file.
"""
from __future__ import annotations

import array as arrays
import collections
import ctypes

from dzwonolin_slices import _bytes, _Lent, _number, _numbers

LENGTH_LIMIT = 1048576


def _library():
    import dzwonolin
    return dzwonolin._library()


# ---------------------------------------------------------- CIFTI's label tables

def call_label_keys(text, lengths, dimension, index, keys, count):
    """dz_label_keys on slices as they are; its number."""
    text = _bytes(text)
    return _library().dz_label_keys(text, len(text), lengths, len(lengths), dimension, index, keys, len(keys), count, len(count))


def label_keys(text, lengths, dimension, index):
    """(0, the keys of that label table in text order) or (number, []). Room is made here, so 17 is not given."""
    room, count = 1024, (ctypes.c_uint64 * 1)()
    while True:
        keys = (ctypes.c_int32 * room)()
        number = call_label_keys(text, _numbers(lengths), _number(dimension), _number(index), keys, count)
        if number != 17:
            return number, keys[:count[0]]
        room = len(text)


def label_name(text, lengths, dimension, index, key):
    """(0, the bytes between the tags of the Label with that key, as written) or (number, b'')."""
    if not -(1 << 31) <= key < 1 << 31:
        raise ValueError("a key is a whole number of 32 bits with a sign")
    data, sizes, part = _bytes(text), _numbers(lengths), (ctypes.c_uint64 * 2)()
    number = _library().dz_label_name(data, len(data), sizes, len(sizes), _number(dimension), _number(index), key, part, 2)
    return number, bytes(text[part[0]:part[0] + part[1]])


# ------------------------------------------------------------- GIFTI label files

def call_gifti_keys(lent, array, keys, count):
    """dz_gifti_keys on a lent text and slices as they are; its number."""
    return _library().dz_gifti_keys(lent.slice, lent.length, array, keys, len(keys), count, len(count))


def gifti_keys(file, array: int) -> tuple[int, arrays.array]:
    """(0, the keys of that array of a GIFTI label file, from 0, by the file's path or its bytes) or (number, none).

    Room is made here, so 17 is not given: a key takes two bytes of the text or more."""
    array, count = _number(array, "an array"), (ctypes.c_uint64 * 1)()
    with _Lent(file, text=True, path=True) as lent:
        keys = (ctypes.c_int32 * min(LENGTH_LIMIT, lent.length // 2 + 1))()
        number = call_gifti_keys(lent, array, keys, count)
    return number, arrays.array("i", memoryview(keys).cast("B")[:4 * count[0]].tobytes())


# A key of an array, and how many places have it.
KeyCount = collections.namedtuple("KeyCount", "array key count")


class GiftiLabels:
    """An accepted GIFTI label file: `keys` has the keys of each array, or of the one that is named."""

    def __init__(self, file, array=None):
        import dzwonolin
        from dzwonolin_file import told_name
        self.name, self.keys = told_name(file), {}
        while array is None or not self.keys:
            place = len(self.keys) if array is None else array
            number, keys = gifti_keys(file, place)
            if number == 18 and self.keys:
                break
            if number:
                raise dzwonolin.Refused(number, self.name)
            self.keys[place] = keys

    def counts(self) -> list[KeyCount]:
        """How often each key stands in each array, by array and by key."""
        return [KeyCount(place, key, count) for place, keys in self.keys.items()
                for key, count in sorted(collections.Counter(keys).items())]
