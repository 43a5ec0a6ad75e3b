"""The oracle behind the C interface, to try the Python module and the comparison without the proved library.

`install(module)` makes the module call the oracle through real C calls, by include/dzwonolin.h.
"""
import ctypes

import dzwonolin_oracle as oracle
import dzwonolin_oracle_gifti as gifti

KINDS = {"brain": 1, "series": 2, "scalars": 3, "labels": 4}


def numbers(pointer, length):
    """The lent slice of 64-bit numbers at a pointer."""
    return (ctypes.c_uint64 * length).from_address(pointer) if length else []


def answer_numbers(answer):
    """An answer of the oracle as the 52 numbers of dz_read."""
    rows = [[answer.number] + [0] * 3]
    for one in answer.dimensions:
        row = [KINDS[one.kind], one.length, one.start, *one.series_start, *one.series_step, one.exponent, one.unit]
        rows.append(row + [0] * (16 - len(row)))
    numbers = [n % (1 << 64) for row in rows for n in row]
    return numbers + [0] * (52 - len(numbers))


def store(slot, values):
    """The values at the start of a lent slice, if they all fit."""
    if len(slot) >= len(values):
        slot[:len(values)] = values


def dz_read(text, text_len, lengths, lengths_len, records, records_len, work, work_len, answer, answer_len):
    got = oracle.read(ctypes.string_at(text, text_len), list(numbers(lengths, lengths_len)), records_len, work_len)
    store(numbers(records, records_len), got.records)
    if work_len:
        ctypes.memset(work, 0, 8 * work_len)
    store(numbers(answer, answer_len), answer_numbers(got))
    return got.number


def dz_map_name(text, text_len, lengths, lengths_len, dimension, index, part, part_len):
    number, start, length = oracle.map_name_place(
        ctypes.string_at(text, text_len), list(numbers(lengths, lengths_len)), dimension, index)
    store(numbers(part, part_len), [start, length])
    return number


def dz_map_names(text, text_len, lengths, lengths_len, dimension, places, places_len, count, count_len):
    number, told = oracle.map_names(ctypes.string_at(text, text_len), list(numbers(lengths, lengths_len)), dimension, places_len)
    store(numbers(places, places_len), told)
    store(numbers(count, count_len), [len(told) // 2])
    return number


def keys_at(pointer, length):
    """The lent slice of keys at a pointer."""
    return (ctypes.c_int32 * length).from_address(pointer) if length else []


def dz_label_keys(text, text_len, lengths, lengths_len, dimension, index, keys, keys_len, count, count_len):
    number, told = oracle.label_keys(ctypes.string_at(text, text_len), list(numbers(lengths, lengths_len)), dimension, index, keys_len)
    store(keys_at(keys, keys_len), told)
    store(numbers(count, count_len), [len(told)])
    return number


def dz_label_name(text, text_len, lengths, lengths_len, dimension, index, key, part, part_len):
    number, start, length = oracle.label_name_place(
        ctypes.string_at(text, text_len), list(numbers(lengths, lengths_len)), dimension, index, key)
    store(numbers(part, part_len), [start, length])
    return number


def dz_gifti_keys(text, text_len, array, keys, keys_len, count, count_len):
    number, told = gifti.gifti_keys(ctypes.string_at(text, text_len), array, keys_len)
    store(keys_at(keys, keys_len), told)
    store(numbers(count, count_len), [len(told)])
    return number


def dz_find(records, records_len, number, place, place_len):
    refusal, found = oracle.find(list(numbers(records, records_len)), number)
    store(numbers(place, place_len), [found])
    return refusal


def dz_pack(records, records_len, sheet, sheet_len, count, count_len):
    number, written = oracle.pack(list(numbers(records, records_len)), sheet_len)
    ctypes.memmove(sheet, written, len(written))
    store(numbers(count, count_len), [len(written)])
    return number


def dz_unpack(sheet, sheet_len, records, records_len, count, count_len):
    number, written = oracle.unpack(ctypes.string_at(sheet, sheet_len), records_len)
    store(numbers(records, records_len), written)
    store(numbers(count, count_len), [len(written)])
    return number


class Library:
    """Has these functions, each behind a C function pointer."""

    def __init__(self, signatures):
        for function in (dz_read, dz_map_name, dz_map_names, dz_label_keys, dz_label_name, dz_gifti_keys, dz_find, dz_pack, dz_unpack):
            kind = ctypes.CFUNCTYPE(ctypes.c_uint64, *signatures[function.__name__])
            callback = kind(function)
            setattr(self, function.__name__ + "_kept", callback)
            prototype = ctypes.CFUNCTYPE(ctypes.c_uint64, *signatures[function.__name__])
            setattr(self, function.__name__, prototype(ctypes.cast(callback, ctypes.c_void_p).value))


def install(module):
    module._loaded = Library(module._FUNCTIONS)
