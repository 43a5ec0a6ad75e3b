"""A file as a script wants it: `dzwonolin.open(path)` gives a `File`, or raises `dzwonolin.Refused`."""
from __future__ import annotations

import array
import collections
import ctypes
import os

import dzwonolin

# A model of a brain map: dimension is the first that the map is on, type 'S' or 'V', structure a name of STRUCTURES.
Count = collections.namedtuple("Count", "dimension type structure count first")


def told_name(file) -> str:
    return os.fspath(file) if isinstance(file, (str, os.PathLike)) else ""


class File:
    """An accepted header.

    number        0, as of every accepted answer
    lengths       of the matrix, in the header's order
    dimensions    a Dimension for each: kind, length, and of a series its start, step, exponent and unit
    records       array('Q'): a whole number of 54 bits for each location, each brain map's at its `start`
    text          the header text, as bytes
    """

    number = 0

    def __init__(self, file, lengths=None):
        self.name = told_name(file)
        with dzwonolin._Lent(file, text=lengths is not None, path=True) as lent:
            number = self._read_file(lent) if lengths is None else self._read_text(lent, lengths)
        if number:
            raise dzwonolin.Refused(number, self.name)

    def _read_file(self, lent) -> int:
        front = dzwonolin._front(lent)
        self.lengths, self.text = front.lengths, lent.cut(front.start, front.length)
        return self._read(lambda *slices: dzwonolin._library().dz_read_file(lent.slice, lent.length, *slices))

    def _read_text(self, lent, lengths) -> int:
        given = dzwonolin._numbers(lengths, "a length")
        self.lengths, self.text = list(given), lent.cut(0, lent.length) if lent.length <= dzwonolin.TEXT_LIMIT else b""
        return self._read(lambda *slices: dzwonolin._library().dz_read(lent.slice, lent.length, given, len(given), *slices))

    def _read(self, call) -> int:
        records, work = dzwonolin._rooms(self.lengths, None, None)
        answer = (ctypes.c_uint64 * dzwonolin.ANSWER)()
        number = call(records, len(records), work, len(work), answer, len(answer))
        told = dzwonolin._answered(number, answer, [])
        self.dimensions = told.dimensions
        filled = max((d.start + d.length for d in told.dimensions if d.kind == "brain"), default=0)
        self.records = array.array("Q", memoryview(records).cast("B")[:8 * filled].tobytes())
        return number

    # ------------------------------------------------------------ brain maps

    def brains(self) -> list[int]:
        """The dimensions of brain maps, each map once."""
        starts = [(d.start, number) for number, d in enumerate(self.dimensions) if d.kind == "brain"]
        return [number for n, (start, number) in enumerate(starts) if start not in [s for s, _ in starts[:n]]]

    def _brain(self, dimension):
        """The dimension of a brain map: the one that is named, or the only one."""
        found = self.brains()
        if dimension is None and len(found) != 1:
            raise ValueError("there is no brain map" if not found else f"say which dimension: {' or '.join(map(str, found))}")
        number = found[0] if dimension is None else dzwonolin._number(dimension, "a dimension")
        if number >= len(self.dimensions) or self.dimensions[number].kind != "brain":
            raise ValueError(f"dimension {number} is no brain map")
        return self.dimensions[number]

    def stretch(self, dimension=None):
        """The records of a brain map, index n at place n, without a copy."""
        one = self._brain(dimension)
        return memoryview(self.records)[one.start:one.start + one.length]

    def location(self, index: int, dimension=None) -> tuple:
        """('S', structure, vertex) or ('V', structure, i, j, k) of an index of the brain map."""
        stretch = self.stretch(dimension)
        if not 0 <= dzwonolin._number(index, "an index") < len(stretch):
            raise IndexError(f"index {index} is not below {len(stretch)}")
        return dzwonolin.unfold(stretch[index])

    def counts(self) -> list[Count]:
        """The models of each brain map, in order of first index."""
        found = []
        for dimension in self.brains():
            number, models = dzwonolin.model_list(self.stretch(dimension))
            if number:
                raise dzwonolin.Refused(number, self.name)
            found += [Count(dimension, m.type, dzwonolin.STRUCTURES[m.structure], m.count, m.first) for m in models]
        return found

    def sheet(self, dimension=None) -> bytes:
        """The records of a brain map as a sheet, to be kept."""
        number, sheet = dzwonolin.pack(self.stretch(dimension))
        if number:
            raise dzwonolin.Refused(number, self.name)
        return sheet

    # ------------------------------------------------------------- map names

    def named(self) -> list[int]:
        """The dimensions that have map names."""
        return [number for number, one in enumerate(self.dimensions) if one.kind in ("scalars", "labels")]

    def names(self, dimension=None) -> list[str]:
        """The map names along a dimension, as written: the only one that has names, where none is named."""
        found = self.named()
        if dimension is None and len(found) != 1:
            raise ValueError("no dimension has map names" if not found else f"say which dimension: {' or '.join(map(str, found))}")
        number = found[0] if dimension is None else dzwonolin._number(dimension, "a dimension")
        if number not in found:
            raise ValueError(f"dimension {number} has no map names")
        return [part.decode() for part in self._parts(number, self.dimensions[number].length)]

    def _parts(self, dimension: int, length: int) -> list[bytes]:
        """The names as bytes: in one call where the library has it, else each by itself."""
        if not (hasattr(dzwonolin, "map_names") and dzwonolin.has("dz_map_names")):
            return [dzwonolin.map_name(self.text, self.lengths, dimension, index)[1] for index in range(length)]
        number, parts = dzwonolin.map_names(self.text, self.lengths, dimension)
        if number:
            raise dzwonolin.Refused(number, self.name)
        return parts

    def __repr__(self) -> str:
        told = ", ".join(f"{d.kind} {d.length}" for d in self.dimensions)
        return f"<dzwonolin.File {self.name or 'of bytes'}: {told}>"
