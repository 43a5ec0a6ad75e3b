"""The wall: what a known file is, a line a fact, to be printed, pinned up and kept under version control.

    dimension 1 brain 91282
    name 0 0 thickness
    model 1 S CORTEX_LEFT 29696 0 SHA256

A model has the dimension of its map, its type, structure, count, first index, and the SHA-256 of its lines on the morning card, each
with its line feed. So every location counts: two models of one count with other locations have other digests. A wall may also keep the
sheet of a brain map, in base 64; then each index that has another location can be named.
"""
from __future__ import annotations

import base64
import collections
import hashlib
import itertools

import dzwonolin

TITLE = "dzwonolin wall 1"
Model = collections.namedtuple("Model", "dimension type structure count first digest")


def digest(file, one, first=None) -> str:
    """Of the lines of a model on the card, as if it began at index `first`."""
    records = file.stretch(one.dimension)[one.first:one.first + one.count]
    begin = one.first if first is None else first
    lines = (" ".join(map(str, (begin + n, *dzwonolin.unfold(record)))) + "\n" for n, record in enumerate(records))
    return hashlib.sha256("".join(lines).encode()).hexdigest()


def dimension_words(file, number) -> str:
    """What is said of a dimension: its kind and length, a series' numbers, and which one has the same brain map."""
    one = file.dimensions[number]
    words = f"{one.kind} {one.length}"
    if one.kind == "series":
        start, step = ("{}e{}".format(*decimal) for decimal in (one.series_start, one.series_step))
        words += f" start {start} step {step} exponent {one.exponent} unit {dzwonolin.UNITS[one.unit]}"
    if one.kind == "brain" and number not in file.brains():
        words += f" as {next(n for n in file.brains() if file.dimensions[n].start == one.start)}"
    return words


def models(file) -> list[Model]:
    return [Model(*one, digest(file, one)) for one in file.counts()]


def facts(file, sheet: bool = False) -> list[str]:
    """The lines of a wall, below its title; with the sheets, where they are asked for."""
    found = [f"dimension {number} {dimension_words(file, number)}" for number in range(len(file.dimensions))]
    for dimension in file.named():
        found += [f"name {dimension} {index} {written(name)}" for index, name in enumerate(file.names(dimension))]
    found += ["model " + " ".join(map(str, one)) for one in models(file)]
    return found + ([f"sheet {d} {base64.b64encode(file.sheet(d)).decode()}" for d in file.brains()] if sheet else [])


def written(name: str) -> str:
    """A map name on one line."""
    return name.replace("\\", "\\\\").replace("\n", "\\n").replace("\r", "\\r").replace("\t", "\\t")


def lines(file, sheet: bool = False) -> list[str]:
    return [TITLE, f"# of {written(file.name)}", *facts(file, sheet)]


# ----------------------------------------------------------------- held against

class Kept:
    """A wall that was kept: what it says of dimensions, names and models, each by what it is said of; and the records of its sheets."""

    def __init__(self, told: list[str]):
        self.dimensions, self.names, self.models, self.records = {}, {}, {}, {}
        for line in told:
            word, _, rest = line.partition(" ")
            if word == "dimension":
                number, _, words = rest.partition(" ")
                self.dimensions[int(number)] = words
            elif word == "name":
                dimension, index, *name = rest.split(" ", 2)
                self.names[int(dimension), int(index)] = "".join(name)
            elif word == "model":
                dimension, kind, structure, count, first, sha = rest.split(" ")
                self.models[int(dimension), kind, structure] = Model(int(dimension), kind, structure, int(count), int(first), sha)
            elif word == "sheet":
                dimension, sheet = rest.split(" ")
                number, self.records[int(dimension)] = dzwonolin.unpack(base64.b64decode(sheet, validate=True))
                if number:
                    raise ValueError(line)
            elif line.strip() and not line.startswith("#"):
                raise ValueError(line)


def read(path) -> Kept:
    """The wall in a file; OSError where there is none."""
    with open(path, encoding="utf-8", errors="surrogateescape") as kept:
        told = kept.read().splitlines()
    try:
        if told[:1] != [TITLE]:
            raise ValueError(TITLE)
        return Kept(told[1:])
    except ValueError:
        raise OSError(22, "is no wall that `dzwonolin wall FILE` wrote", str(path)) from None


def about(one: Model, many: bool) -> str:
    return f"{one.structure} ({'surface' if one.type == 'S' else 'voxels'})" + (f" of dimension {one.dimension}" if many else "")


def model_difference(was: Model, now: Model, file) -> str:
    """What is other of a model that both have, or nothing."""
    if was.count != now.count:
        return f"{now.count} locations, and {was.count} on the wall"
    if was.first == now.first:
        return "" if was.digest == now.digest else f"the same count, {now.count}, with other locations"
    same = digest(file, now, was.first) == was.digest
    return f"begins at index {now.first}, and at {was.first} on the wall, with " + ("the same locations" if same else "other locations")


def location_words(record) -> str:
    if record is None:
        return "none"
    kind, structure, *numbers = dzwonolin.unfold(record)
    return f"{'vertex' if kind == 'S' else 'voxel'} {' '.join(map(str, numbers))} of {dzwonolin.STRUCTURES[structure]}"


def index_differences(wall: Kept, file):
    """A line for each index that has another location than on the sheets of a wall."""
    for dimension, kept in wall.records.items():
        now = file.stretch(dimension) if dimension in file.brains() else []
        for index, (old, new) in enumerate(itertools.zip_longest(kept, now)):
            if old != new:
                yield f"index {index} of dimension {dimension}: {location_words(new)}, and on the wall {location_words(old)}"


def side_by_side(word: str, was: dict, now: dict):
    """A line for each fact that only one has, or that is another."""
    for key in sorted(was.keys() | now.keys()):
        name = f"{word} {' '.join(map(str, key)) if isinstance(key, tuple) else key}"
        if was.get(key) != now.get(key):
            yield f"{name}: {now.get(key, 'missing')}, and on the wall " + was.get(key, "none")


def differences(wall: Kept, file) -> list[str]:
    """What is other in a file than on a wall, a line each; none where it is the same."""
    now = Kept(facts(file))
    found = [*side_by_side("dimension", wall.dimensions, now.dimensions), *side_by_side("name", wall.names, now.names)]
    many = len({key[0] for key in wall.models.keys() | now.models.keys()}) > 1
    for key, was in wall.models.items():
        if key not in now.models:
            found.append(f"{about(was, many)}: missing, {was.count} locations on the wall")
        else:
            said = model_difference(was, now.models[key], file)
            found += [f"{about(was, many)}: {said}"] if said else []
    found += [f"{about(one, many)}: new, {one.count} locations" for key, one in now.models.items() if key not in wall.models]
    return found + list(index_differences(wall, file))
