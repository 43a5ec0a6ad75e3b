"""Empty slices of the functions for C, with a null pointer and with another: both give the same.

    python3 tests/empty.py
Each function is called on case A's arguments with every choice of its slices left empty, once with an address and once with null.
"""
import array
import ctypes
import itertools
import pathlib
import sys

HERE = pathlib.Path(__file__).resolve().parent
sys.path[:0] = [str(HERE), str(HERE.parent / "python")]

import dzwonolin  # noqa: E402
import served  # noqa: E402
import paper  # noqa: E402
import stations  # noqa: E402

# A slice to be read is bytes or a list of numbers, one to be written a number of places, an array of keys or a buffer of bytes, and a
# plain number a tuple of one.
CALLS = {
    "dz_read": [paper.CASE_A, [2, 3], 3, 3, dzwonolin.ANSWER],
    "dz_map_name": [paper.CASE_A, [2, 3], (0,), (1,), 2],
    "dz_map_names": [paper.CASE_A, [2, 3], (0,), 4, 1],
    "dz_find": [paper.RECORDS_A, (paper.RECORDS_A[1],), 1],
    "dz_pack": [paper.RECORDS_A, bytearray(len(paper.SHEET_A)), 1],
    "dz_unpack": [paper.SHEET_A, 3, 1],
    "dz_front": [paper.FILE_A, 6],
    "dz_read_file": [paper.FILE_A, 3, 3, dzwonolin.ANSWER],
    "dz_file_map_name": [paper.FILE_A, (0,), (1,), 2],
    "dz_model_list": [paper.RECORDS_A, 8, 1],
    "dz_structure_at": [paper.LIST_A, (2,), 2],
    "dz_index_of": [paper.LIST_A, paper.RECORDS_A, (paper.RECORDS_A[1],), 1],
    "dz_compare": [paper.SHEET_A, paper.SHEET_A, 6, 4],
    "dz_tail": [paper.SHEET_A, paper.SHEET_A, 6, 3],
    "dz_gifti_keys": [stations.LABELS, (0,), array.array("i", [7] * 12), 1],
}
# The number where the slices named by their places are empty.
NUMBERS = {
    ("dz_read", (0,)): 3, ("dz_read", (1,)): 1, ("dz_read", (2,)): 13, ("dz_read", (3,)): 13, ("dz_read", (4,)): 0,
    ("dz_map_name", (0,)): 3, ("dz_map_name", (1,)): 1, ("dz_map_name", (4,)): 0,
    ("dz_map_names", (0,)): 3, ("dz_map_names", (1,)): 1, ("dz_map_names", (3,)): 17, ("dz_map_names", (4,)): 0,
    ("dz_find", (0,)): 19, ("dz_find", (2,)): 0,
    ("dz_pack", (0,)): 15, ("dz_pack", (1,)): 17, ("dz_pack", (2,)): 0,
    ("dz_unpack", (0,)): 15, ("dz_unpack", (1,)): 17, ("dz_unpack", (2,)): 0,
    ("dz_front", (0,)): 20, ("dz_front", (1,)): 0,
    ("dz_read_file", (0,)): 20, ("dz_read_file", (1,)): 13, ("dz_read_file", (2,)): 13, ("dz_read_file", (3,)): 0,
    ("dz_file_map_name", (0,)): 20, ("dz_file_map_name", (3,)): 0,
    ("dz_model_list", (0,)): 15, ("dz_model_list", (1,)): 17, ("dz_model_list", (2,)): 0,
    ("dz_structure_at", (0,)): 19, ("dz_structure_at", (2,)): 0,
    ("dz_index_of", (0,)): 19, ("dz_index_of", (1,)): 26, ("dz_index_of", (3,)): 0,
    ("dz_compare", (0,)): 15, ("dz_compare", (1,)): 15, ("dz_compare", (2,)): 13, ("dz_compare", (3,)): 0,
    ("dz_tail", (0,)): 15, ("dz_tail", (1,)): 15, ("dz_tail", (2,)): 13, ("dz_tail", (3,)): 0,
    ("dz_gifti_keys", (0,)): 3, ("dz_gifti_keys", (2,)): 17, ("dz_gifti_keys", (3,)): 0,
}


def slice_of(given, empty):
    """A lent slice, full or of no elements."""
    if isinstance(given, bytes):
        return b"" if empty else given
    if isinstance(given, bytearray):
        return (ctypes.c_uint8 * (0 if empty else len(given)))()
    if isinstance(given, array.array):
        return (ctypes.c_int32 * (0 if empty else len(given)))(*([] if empty else given))
    if isinstance(given, int):
        return (ctypes.c_uint64 * (0 if empty else given))(*([7] * (0 if empty else given)))
    return dzwonolin._numbers([] if empty else given)


def called(name, empty, null):
    """The number, and what the slices hold after."""
    words, slices = [], []
    for place, given in enumerate(CALLS[name]):
        if isinstance(given, tuple):
            words += given
            continue
        one = slice_of(given, place in empty)
        words += [None if null and place in empty else one, len(one)]
        slices.append(one)
    number = getattr(dzwonolin._library(), name)(*words)
    return number, [list(one) for one in slices]


def wrong():
    for name, arguments in CALLS.items():
        places = [p for p, given in enumerate(arguments) if not isinstance(given, tuple)]
        for empty in itertools.chain.from_iterable(itertools.combinations(places, n) for n in range(1, len(places) + 1)):
            by_address, by_null = called(name, empty, False), called(name, empty, True)
            wanted = NUMBERS.get((name, empty), by_address[0])
            if by_address != by_null or by_null[0] != wanted:
                yield f"{name}, empty {empty}: {by_address[0]} with an address, {by_null[0]} with null, wanted {wanted}"


def main():
    served.ready(dzwonolin)
    bad = list(wrong())
    print("\n".join(bad) or "empty slices give the same with a null pointer as with another")
    return 1 if bad else 0


if __name__ == "__main__":
    raise SystemExit(main())
