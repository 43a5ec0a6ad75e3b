"""Dzwonolin from Python: a proved reader of CIFTI-2 headers.

    >>> import dzwonolin
    >>> f = dzwonolin.open("examples/station.dscalar.nii")
    >>> [(d.kind, d.length) for d in f.dimensions]
    [('scalars', 2), ('brain', 9)]
    >>> f.names()
    ['thickness', 'curvature']
    >>> f.location(8)
    ('V', 6, 2, 3, 6)
    >>> for one in f.counts():
    ...     print(one.type, one.structure, one.count, one.first)
    S CORTEX_LEFT 4 0
    S CORTEX_RIGHT 3 4
    V BRAIN_STEM 2 7
    >>> try:
    ...     dzwonolin.open("README.md")
    ... except dzwonolin.Refused as refused:
    ...     print(refused.number, refused.reason[:23])
    20 a file under 544 bytes;

`open` takes the path or the bytes of a NIfTI-2 file, or with `lengths` the text of a header. The functions below give numbers, 0 or a
refusal, and raise nothing for a bad text:

    dzwonolin.read(text, [2, 91282])               .number, .dimensions, and .records, a whole number of 54 bits for each location
    dzwonolin.map_name(text, [2, 91282], 0, 1)     (0, b'the second name')
    dzwonolin.label_keys(text, [2, 91282], 0, 1)   (0, the keys of the second label table)
    dzwonolin.label_name(text, [2, 91282], 0, 1, 7)    (0, b'the name of key 7 in it')
    dzwonolin.gifti_keys("lh.aparc.label.gii", 0)  (0, the keys of the first array of a GIFTI label file), by its path or its bytes
    dzwonolin.read_file("brain.dscalar.nii")       the same of a NIfTI-2 file, by its path or its bytes
    dzwonolin.front("brain.dscalar.nii")           its number, lengths, and where the header text starts and how long it is
    dzwonolin.file_map_name("brain.dscalar.nii", 0, 1)
    dzwonolin.compare(old, new)                    of two sheets: number, same, moved, first, second, and the longer's part

On a terminal there is the command `dzwonolin` (docs/USING.md), and still:

    python3 python/dzwonolin.py card brain.dscalar.nii
    python3 python/dzwonolin.py list header.xml 2,91282      the morning card, for a text of any size
    python3 python/dzwonolin.py card header.xml 2,91282      the same, then a line for each model:
        model START TYPE STRUCTURE NAME COUNT FIRST          stretch start, S or V, count, first index
    python3 python/dzwonolin.py compare OLD NEW              two sheets: how many are same, moved, first, second; then what changed

Standard library only. The shared library is looked for in DZWONOLIN_LIBRARY (a path), beside this file, in the
folders lib, build and target above it, and then where the system keeps its own. The library is for x86-64 Linux.
"""
from __future__ import annotations

import collections
import ctypes
import os
import pathlib
import platform
import sys
from dzwonolin_labels import call_gifti_keys, call_label_keys, gifti_keys, label_keys, label_name  # noqa: F401
from dzwonolin_slices import TEXT_LIMIT, NoLibrary, _bytes, _Lent, _machine_of, _number, _numbers, _room, _Shared  # noqa: F401

__all__ = ["read", "read_file", "front", "file_map_name", "map_name", "map_names", "label_keys", "label_name", "gifti_keys", "find",
           "pack", "unpack", "unfold", "compare", "Answer", "Dimension", "Front", "STRUCTURES", "UNITS"]
__all__ += ["open", "File", "Refused", "NoLibrary", "reason", "has"]
__version__ = "1.0.0"

LENGTH_LIMIT = 1048576
# An answer of dz_read, by the names of include/dzwonolin.h: a head, then the numbers of three dimensions.
HEAD, DIMENSION, ANSWER = 4, 16, 52
KINDS = (None, "brain", "series", "scalars", "labels")
UNITS = ("SECOND", "HERTZ", "METER", "RADIAN")
STRUCTURES = (
    "ACCUMBENS_LEFT ACCUMBENS_RIGHT ALL_WHITE_MATTER ALL_GREY_MATTER AMYGDALA_LEFT AMYGDALA_RIGHT "
    "BRAIN_STEM CAUDATE_LEFT CAUDATE_RIGHT CEREBELLAR_WHITE_MATTER_LEFT CEREBELLAR_WHITE_MATTER_RIGHT "
    "CEREBELLUM CEREBELLUM_LEFT CEREBELLUM_RIGHT CEREBRAL_WHITE_MATTER_LEFT CEREBRAL_WHITE_MATTER_RIGHT "
    "CORTEX CORTEX_LEFT CORTEX_RIGHT DIENCEPHALON_VENTRAL_LEFT DIENCEPHALON_VENTRAL_RIGHT "
    "HIPPOCAMPUS_LEFT HIPPOCAMPUS_RIGHT OTHER OTHER_GREY_MATTER OTHER_WHITE_MATTER PALLIDUM_LEFT "
    "PALLIDUM_RIGHT PUTAMEN_LEFT PUTAMEN_RIGHT THALAMUS_LEFT THALAMUS_RIGHT").split()

# series_start and series_step are (amount, power of ten): 2.0 is (20, -1), 7.2E-1 is (72, -2). They, exponent and unit are 0 but for
# a series.
Dimension = collections.namedtuple("Dimension", "kind length start series_start series_step exponent unit")
# A refused answer has its number, no dimensions and no records.
Answer = collections.namedtuple("Answer", "number dimensions records")
# A refused front has its number, no lengths, and 0, 0. The lengths are in the header's order.
Front = collections.namedtuple("Front", "number lengths start length")

_loaded = None
_SLICE = (ctypes.c_void_p, ctypes.c_size_t)
_FUNCTIONS = {"dz_read": _SLICE * 5, "dz_map_name": _SLICE * 2 + (ctypes.c_uint64,) * 2 + _SLICE,
              "dz_find": _SLICE + (ctypes.c_uint64,) + _SLICE, "dz_pack": _SLICE * 3, "dz_unpack": _SLICE * 3,
              "dz_front": _SLICE * 2, "dz_read_file": _SLICE * 4, "dz_file_map_name": _SLICE + (ctypes.c_uint64,) * 2 + _SLICE}
# all names of a map
_FUNCTIONS["dz_map_names"] = _SLICE * 2 + (ctypes.c_uint64,) + _SLICE * 2
# the short list
_FUNCTIONS.update({"dz_model_list": _SLICE * 3, "dz_structure_at": _SLICE + (ctypes.c_uint64,) + _SLICE,
                   "dz_index_of": _SLICE * 2 + (ctypes.c_uint64,) + _SLICE})
# two sheets side by side
_FUNCTIONS.update({"dz_compare": _SLICE * 4, "dz_tail": _SLICE * 4})
# labels
_FUNCTIONS.update({"dz_label_keys": _SLICE * 2 + (ctypes.c_uint64,) * 2 + _SLICE * 2,
                   "dz_label_name": _SLICE * 2 + (ctypes.c_uint64,) * 2 + (ctypes.c_int32,) + _SLICE,
                   "dz_gifti_keys": _SLICE + (ctypes.c_uint64,) + _SLICE * 2})


# ----------------------------------------------------------- library and slices

def _places():
    here = pathlib.Path(__file__).resolve().parent
    folders = [here] + [here.parent / folder for folder in ("lib", "build", "target")] + [here.parent.parent]
    for folder in folders:
        yield from (folder / name for name in ("libdzwonolin.so", "libdzwonolin.so.1"))


def _found():
    """The path of the shared library, or the name that the system knows it by."""
    told = os.environ.get("DZWONOLIN_LIBRARY")
    if told:
        return told
    there = [str(place) for place in _places() if place.exists()]
    mine = [path for path in there if _machine_of(path) in (None, platform.machine())]
    if mine or there:
        return (mine or there)[0]
    import ctypes.util
    return ctypes.util.find_library("dzwonolin")


def _library():
    """The shared library, loaded once."""
    global _loaded
    if _loaded is None:
        found = _found()
        if not found:
            raise NoLibrary("libdzwonolin.so not found: run ./library, or name it in DZWONOLIN_LIBRARY")
        _loaded = _Shared(found, _FUNCTIONS)
    return _loaded


def has(name: str) -> bool:
    """Whether the library has a function, as 'dz_compare'."""
    return hasattr(_library(), name)


def _signed(number):
    return number - (1 << 64) if number >> 63 else number


# -------------------------------------------------------------------- functions

def call_read(text, lengths, records, work, answer):
    """dz_read on slices as they are (ctypes arrays); its number."""
    with _Lent(text, text=True) as lent:
        return _library().dz_read(lent.slice, lent.length, lengths, len(lengths), records, len(records), work, len(work),
                                  answer, len(answer))


def call_map_name(text, lengths, dimension, index, part):
    """dz_map_name on slices as they are; its number."""
    with _Lent(text, text=True) as lent:
        return _library().dz_map_name(lent.slice, lent.length, lengths, len(lengths), dimension, index, part, len(part))


def _dimension(numbers):
    kind, length, start, begin, begin_power, step, step_power, exponent, unit = numbers[:9]
    return Dimension(KINDS[kind], length, start, (_signed(begin), _signed(begin_power)), (_signed(step), _signed(step_power)),
                     _signed(exponent), unit)


def read(text, lengths, records=None, work=None) -> Answer:
    """Reads the text of a header, with the lengths of its matrix.

    `records` and `work` are sizes, or buffers of 64-bit numbers that are written in place. By default both are as
    large as the lengths can ask for."""
    lengths = _numbers(lengths, "a length")
    records, work = _rooms(lengths, records, work)
    answer = (ctypes.c_uint64 * ANSWER)()
    return _answered(call_read(text, lengths, records, work, answer), answer, records)


def _rooms(lengths, records, work):
    """The slices lent for writing: as large as the lengths can ask for, where no other size is given."""
    fine = len(lengths) in (2, 3) and all(1 <= n <= LENGTH_LIMIT for n in lengths)
    return _room(records, sum(lengths) if fine else 0), _room(work, max(lengths) if fine else 0)


def _answered(number, answer, records):
    if number:
        return Answer(number, [], [])
    dimensions = [_dimension(answer[at:at + DIMENSION]) for at in range(HEAD, ANSWER, DIMENSION) if answer[at]]
    filled = max((d.start + d.length for d in dimensions if d.kind == "brain"), default=0)
    return Answer(0, dimensions, records[:filled])


def map_name(text, lengths, dimension: int, index: int) -> tuple[int, bytes]:
    """(0, the bytes between the tags of that MapName, as written) or (number, b'')."""
    part = (ctypes.c_uint64 * 2)()
    number = call_map_name(text, _numbers(lengths, "a length"), _number(dimension, "a dimension"), _number(index, "an index"), part)
    return number, bytes(memoryview(text)[part[0]:part[0] + part[1]])


def map_names(text, lengths, dimension):
    """(0, the names of all maps along a dimension, each the bytes between its tags, as written) or (number, [])."""
    text, lengths, dimension = _bytes(text), _numbers(lengths), _number(dimension)
    wanted = lengths[dimension] if dimension < len(lengths) else 0
    places, count = (ctypes.c_uint64 * (2 * wanted if wanted <= LENGTH_LIMIT else 0))(), (ctypes.c_uint64 * 1)()
    number = _library().dz_map_names(text, len(text), lengths, len(lengths), dimension, places, len(places), count, 1)
    told = places[:2 * count[0]]
    return number, [text[start:start + length] for start, length in zip(told[::2], told[1::2])]


def _front(lent):
    told = (ctypes.c_uint64 * 6)()
    number = _library().dz_front(lent.slice, lent.length, told, 6)
    return Front(number, told[1:1 + told[0]], told[4], told[5])


def front(file) -> Front:
    """The front of a NIfTI-2 file, by its path or its bytes."""
    with _Lent(file) as lent:
        return _front(lent)


def read_file(file, records=None, work=None) -> Answer:
    """Reads a NIfTI-2 file, by its path or its bytes: its front, and then its header text as `read` does."""
    with _Lent(file) as lent:
        lengths = _front(lent).lengths
        records, work = _rooms(lengths, records, work)
        answer = (ctypes.c_uint64 * ANSWER)()
        number = _library().dz_read_file(lent.slice, lent.length, records, len(records), work, len(work), answer, len(answer))
        return _answered(number, answer, records)


def file_map_name(file, dimension: int, index: int) -> tuple[int, bytes]:
    """(0, the bytes between the tags of that MapName, as written) or (number, b'')."""
    with _Lent(file) as lent:
        part = (ctypes.c_uint64 * 2)()
        number = _library().dz_file_map_name(lent.slice, lent.length, _number(dimension, "a dimension"), _number(index, "an index"),
                                             part, 2)
        return number, lent.cut(part[0], part[1])


def find(records, number: int) -> tuple[int, int]:
    """(0, the first place of the number) or (19, 0)."""
    records, place = _numbers(records), (ctypes.c_uint64 * 1)()
    return _library().dz_find(records, len(records), _number(number), place, 1), place[0]


def pack(records) -> tuple[int, bytes]:
    """(0, the sheet of these records, 7 bytes each) or (number, b'')."""
    records, count = _numbers(records), (ctypes.c_uint64 * 1)()
    sheet = ctypes.create_string_buffer(4 + 7 * len(records))
    number = _library().dz_pack(records, len(records), sheet, len(sheet), count, 1)
    return number, sheet.raw[:count[0]]


def unpack(sheet) -> tuple[int, list[int]]:
    """(0, the records of this sheet, of 5 or of 7 bytes a record) or (number, [])."""
    with _Lent(sheet, text=True) as lent:
        count, records = (ctypes.c_uint64 * 1)(), (ctypes.c_uint64 * (lent.length // 5))()
        number = _library().dz_unpack(lent.slice, lent.length, records, len(records), count, 1)
    return number, records[:count[0]]


def unfold(record: int) -> tuple:
    """('S', structure, vertex) or ('V', structure, i, j, k)."""
    structure, payload = record >> 48 & 31, record & (1 << 48) - 1
    if record >> 53:
        return "V", structure, payload >> 32, payload >> 16 & 65535, payload & 65535
    return "S", structure, payload


# --------------------------------------------------- a file as scripts want it

def reason(number: int) -> str:
    """The words of include/dzwonolin.h for a number of refusal."""
    from dzwonolin_reasons import REASONS
    return "accepted" if number == 0 else REASONS.get(number, "not a number of refusal")


class Refused(Exception):
    """What `open` raises of a file or a text that breaks a rule: `number`, and `reason` in words."""

    def __init__(self, number: int, about: str = ""):
        self.number, self.reason = number, reason(number)
        super().__init__(f"{about}: refused {number}: {self.reason}" if about else f"refused {number}: {self.reason}")


def open(file, lengths=None) -> File:
    """The header of a NIfTI-2 file, by its path or its bytes; with `lengths`, as [2, 91282], of a header text.

    Raises `Refused` where a rule is broken, OSError where there is no such file, and `NoLibrary`, which is one too."""
    from dzwonolin_file import File
    return File(file, lengths)


def __getattr__(name: str):
    if name == "File":
        from dzwonolin_file import File
        return File
    raise AttributeError(f"module 'dzwonolin' has no attribute {name!r}")


# --------------------------------------------------------------- the short list

# A model of a short list: type is 'S' or 'V'.
Model = collections.namedtuple("Model", "first count type structure")


def _list_numbers(models):
    return _numbers([n for m in models for n in (m[0], m[1], {"S": 0, "V": 1}.get(m[2], m[2]), m[3])])


def model_list(records, room: int = 64) -> tuple[int, list[Model]]:
    """(0, the models of the records of one brain map, in order) or (number, [])."""
    records, count = _numbers(records), (ctypes.c_uint64 * 1)()
    lent = (ctypes.c_uint64 * (4 * room))()
    number = _library().dz_model_list(records, len(records), lent, len(lent), count, 1)
    rows = [lent[4 * i:4 * i + 4] for i in range(count[0])]
    return number, [Model(first, size, "SV"[kind], structure) for first, size, kind, structure in rows]


def structure_at(models, index: int) -> tuple:
    """(0, 'S' or 'V', the structure) at an index, or (number, None, 0)."""
    lent, answer = _list_numbers(models), (ctypes.c_uint64 * 2)()
    number = _library().dz_structure_at(lent, len(lent), _number(index), answer, 2)
    return (number, None, 0) if number else (0, "SV"[answer[0]], answer[1])


def index_of(models, records, record: int) -> tuple[int, int]:
    """(0, the index of the record) or (number, 0)."""
    lent, records, place = _list_numbers(models), _numbers(records), (ctypes.c_uint64 * 1)()
    return _library().dz_index_of(lent, len(lent), records, len(records), _number(record), place, 1), place[0]


# ------------------------------------------------------- two sheets side by side

# The counts, and the part of the longer sheet that the shorter has no place for. Refused: 0s and an empty part.
Comparison = collections.namedtuple("Comparison", "number same moved first second part")


def compare(first, second, work=None):
    """Two sheets side by side. `work` is a size, or a buffer of 64-bit numbers; by default it is as large as the sheets can ask for."""
    first, second = _bytes(first), _bytes(second)
    sheets = (first, len(first), second, len(second))
    work = _room(work, (len(first) + len(second)) // 5)
    counts, part = (ctypes.c_uint64 * 4)(), (ctypes.c_uint64 * 3)()
    number = _library().dz_compare(*sheets, work, len(work), counts, 4)
    _library().dz_tail(*sheets, work, len(work), part, 3)
    sheet, start, length = part
    return Comparison(number, *counts, (first, second)[sheet][start:start + length])


def changes(first, second):
    """A line for each location that changed, as the comparer has them: of two sheets that `compare` does not refuse."""
    old, new = unpack(first)[1], unpack(second)[1]
    before, after = set(old), set(new)
    told = [("moved" if r in after else "first", i, r) for i, r in enumerate(old) if i >= len(new) or new[i] != r]
    for word, index, record in told + [("second", i, r) for i, r in enumerate(new) if r not in before]:
        yield " ".join(map(str, (word, index, *unfold(record))))


# ------------------------------------------------------------- the command line

def _stretches(answer):
    """(start, length) of each brain map once, in text order."""
    return sorted({(d.start, d.length) for d in answer.dimensions if d.kind == "brain"})


def card(answer):
    """The lines of the morning card."""
    if answer.number:
        yield f"refused {answer.number}"
        return
    yield "ok"
    for number, one in enumerate(answer.dimensions):
        yield f"{number} {one.kind} {one.length}" + (f" {one.start}" if one.kind == "brain" else "")
    for start, length in _stretches(answer):
        for index in range(length):
            yield " ".join(map(str, (index, *unfold(answer.records[start + index]))))


def models(answer):
    """A line for each model of each brain map, in order of first index: its short list, which an accepted stretch always makes."""
    for start, length in _stretches(answer):
        for one in model_list(answer.records[start:start + length])[1]:
            yield f"model {start} {one.type} {one.structure} {STRUCTURES[one.structure]} {one.count} {one.first}"


def main(arguments) -> int:
    """The command line: `card|list FILE.nii`, `card|list TEXT LENGTHS`, or any other of the command `dzwonolin`."""
    from dzwonolin_command import main as command
    if len(arguments) == 3 and arguments[0] in ("card", "list") and "-" not in (arguments[1][:1], arguments[2][:1]):
        arguments = [arguments[0], arguments[1], "--lengths", arguments[2]]
    return command(arguments)


if __name__ == "__main__":
    sys.exit(main(sys.argv[1:]))
