"""Where a file or a text breaks a rule, and what stands there: by the independent reading, which is tested and not proved.

`explained(text, lengths)` and `explained_file(data)` read by dzwonolin_oracle and give its number with the spots that it is about.
"""
from __future__ import annotations

import collections
import re

import dzwonolin_oracle as oracle
import dzwonolin_oracle_front as front
import dzwonolin_oracle_markup as markup
import dzwonolin_oracle_rules as rules
from dzwonolin_oracle_markup import Refused

# A place of the text (or none), the path of the element (or none), and what is wrong there.
Spot = collections.namedtuple("Spot", "place path words")
WORD = re.compile(rb"[^ \t\r\n]+")
MOST = 5


# ------------------------------------------------------------ what bytes look like

PACKED = {b"\x1f\x8b": "gzip", b"BZh": "bzip2", b"\xfd7zXZ": "xz", b"PK\3\4": "zip", b"\x28\xb5\x2f\xfd": "zstd"}


def packed(first: bytes) -> str:
    name = next((name for mark, name in PACKED.items() if first.startswith(mark)), "")
    return f"it is compressed, by {name}: unpack it first" if name else ""


def looks_like(first: bytes) -> str:
    """What bytes are that are no NIfTI-2 file or no header text, as far as their front tells."""
    if packed(first):
        return packed(first)
    if first[:4] in (b"\x5c\1\0\0", b"\0\0\1\x5c"):
        return "it is a NIfTI-1 file: CIFTI-2 is NIfTI-2"
    if first[:2] in (b"\xff\xfe", b"\xfe\xff") or first[:4] in (b"<\0?\0", b"\0<\0?"):
        return "it is text in UTF-16"
    if is_gifti(first):
        return "it looks like a GIFTI file: dzwonolin labels reads those of labels"
    if re.match(rb"(\xef\xbb\xbf)?[ \t\r\n]*<", first):
        return "it looks like a header text: give the lengths of its matrix, as --lengths 2,91282"
    if re.match(rb"[0-9]+(,[0-9]+)*\r?\n<", first):
        return "it looks like a line of lengths and a header text: give the text alone, and the lengths by --lengths"
    return ""


NO_LABELS = "it is a NIfTI-2 file and no GIFTI label file"
WITHOUT_LENGTHS = "it is a NIfTI-2 file and no header text: ask without --lengths"


def is_file(first: bytes) -> bool:
    return first[4:7] == b"n+2"


def is_gifti(first: bytes) -> bool:
    return re.match(rb"[^\0]*<GIFTI", first) is not None


LEFT_OUT = [
    (b"&#", "a number reference, as &#65;, which this grammar leaves out"),
    (b"&", "an & that begins none of &amp; &lt; &gt; &quot; &apos;"),
    (b"<![CDATA[", "CDATA, which may stand inside an element alone"),
    (b"<!DOCTYPE", "a DOCTYPE: one may stand before the root, without [, ] or < in it"),
    (b"<?xml", "a declaration that is not version 1.0 and, if it is told, encoding UTF-8; nothing else may stand in it"),
    (b"<?", "a processing instruction, which this grammar leaves out"),
]


def stops(text: bytes, refused) -> str:
    """Why the markup stops at a place, in words on what stands there."""
    ahead = text[refused.place:refused.place + 12]
    if not text:
        return "the text is empty"
    if is_file(text):
        return WITHOUT_LENGTHS
    if refused.place == 0 and text.startswith(b"\xef\xbb\xbf"):
        return "a byte-order mark, which this grammar leaves out: write the text without it"
    if text[:2] in (b"\xff\xfe", b"\xfe\xff") or b"\0" in text[:4]:
        return "the text is in UTF-16, or holds zero bytes: only UTF-8 is read"
    if any(text.startswith(mark) for mark in PACKED):
        return looks_like(text[:600])
    if refused.place == 0 and not text.lstrip(markup.BLANKS).startswith(b"<"):
        return "the text does not begin with <"
    if refused.why in ("a lone &", "not a start tag", "something after the root"):
        found = next((words for mark, words in LEFT_OUT if ahead.startswith(mark)), None)
        if found:
            return found
    if refused.why == "not a start tag":
        return tag_words(text, refused.place)
    return refused.why


TAG_PARTS = re.compile(rb"<%b(?:%b+%b%b*=%b*%b)*"
                       % (markup.NAME, markup.BLANK, markup.NAME, markup.BLANK, markup.BLANK, markup.VALUE))


def tag_words(text: bytes, at: int) -> str:
    good = TAG_PARTS.match(text, at)
    if not good:
        return "no name stands behind this <" if text[at:at + 1] == b"<" else "an element should begin here"
    return f"the tag is good up to {shortened(text[good.end() - 20 if good.end() - at > 20 else at:good.end()])}, and then reads " \
           f"{shortened(text[good.end():good.end() + 20])}"


def shortened(words: bytes) -> str:
    return repr(words.decode("utf-8", "backslashreplace"))


# ------------------------------------------------------------ where a thing stands

def line_and_column(text: bytes, place: int) -> tuple[int, int]:
    """From 1; a line ends as on Linux or as on Windows, and a column is a character."""
    before = markup.line_ends(text[:place])
    last = before.rfind(b"\n") + 1
    return before.count(b"\n") + 1, len(before[last:].decode("utf-8", "replace")) + 1


def tag_place(text: bytes, element) -> int:
    """Where the start tag of an element begins: no < stands in a tag."""
    return text.rfind(b"<", 0, element.begin)


def attribute_place(text: bytes, element, name: bytes) -> int:
    """Where an attribute stands in the tag of an element."""
    begin = tag_place(text, element)
    for one in markup.ATTRIBUTE.finditer(text, begin, element.begin):
        if one["name"] == name:
            return one.start("name")
    return begin


def word_place(text: bytes, element, number: int) -> int:
    """Where a word of an element's text stands, from 0; the element's, where comments or references make that unsure."""
    raw = text[element.begin:element.end]
    if b"<" in raw or b"&" in raw:
        return tag_place(text, element)
    for n, one in enumerate(WORD.finditer(raw)):
        if n == number:
            return element.begin + one.start()
    return element.end


def paths(root):
    """The path of each element, by the place where its contents begin: its names, each with its number, from 1, where there are many."""
    found, open_ones = {}, [(root, root.name.decode())]
    while open_ones:
        element, path = open_ones.pop()
        found[element.begin] = path
        counts = collections.Counter(c.name for c in element.children())
        met = collections.Counter()
        for child in element.children():
            met[child.name] += 1
            told = f"[{met[child.name]}]" if counts[child.name] > 1 else ""
            open_ones.append((child, f"{path}/{child.name.decode()}{told}"))
    return found


class Reading:
    """A text with its document, for the words on one refusal."""

    def __init__(self, text: bytes, lengths: list):
        self.text, self.lengths, self.root = text, lengths, markup.document(text)
        self.paths = paths(self.root)

    def spot(self, words: str, element, attribute=None, word=None) -> Spot:
        place = (attribute_place(self.text, element, attribute) if attribute else
                 tag_place(self.text, element) if word is None else word_place(self.text, element, word))
        return Spot(place, self.paths[element.begin], words)

    def maps(self):
        return [rules.Map(m) for m in self.root.child(b"Matrix").children(b"MatrixIndicesMap")]

    def brains(self):
        return [one for one in self.maps() if one.kind == "brain"]


# ------------------------------------------------------- the words on each refusal

def root_spots(reading):
    root = reading.root
    if root.name != b"CIFTI":
        yield reading.spot(f"the root is {root.name.decode()}, and must be CIFTI", root)
    else:
        version = root.value(b"Version")
        words = "it has no Version" if version is None else f"Version is {shortened(version)}, and must be '2'"
        yield reading.spot(words, root, b"Version")


def kind_spots(reading):
    for matrix in reading.root.children(b"Matrix"):
        for one in matrix.children(b"MatrixIndicesMap"):
            kind = one.value(b"IndicesMapToDataType")
            if kind in rules.LATER_KINDS:
                yield reading.spot(f"a map of kind {kind.decode().removeprefix('CIFTI_INDEX_TYPE_')}, which is not read",
                                   one, b"IndicesMapToDataType")


def dimension_spots(reading):
    listed, count = collections.defaultdict(list), len(reading.lengths)
    for one in reading.maps():
        for dimension in one.applies:
            listed[dimension].append(one.element)
    for dimension in sorted(set(range(count)) | set(listed)):
        for element in listed[dimension] if dimension >= count else listed[dimension][1:]:
            words = f"the matrix has only {count} dimensions" if dimension >= count else f"dimension {dimension} is listed before this"
            yield reading.spot(f"it lists dimension {dimension}, and {words}", element, b"AppliesToMatrixDimension")
        if not listed[dimension]:
            yield Spot(None, None, f"no map lists dimension {dimension}, of length {reading.lengths[dimension]}")


def length_spots(reading):
    for one in reading.maps():
        for dimension in one.applies:
            length = reading.lengths[dimension]
            if one.length != length:
                yield reading.spot(f"the map has length {one.length}, and dimension {dimension} of the matrix has {length}", one.element)


def pair_spots(reading):
    for one in reading.brains():
        met = {}
        for model in one.models:
            pair = model.type, model.structure
            if pair in met:
                word = model.element.value(b"BrainStructure").decode()
                yield reading.spot(f"a model of this type and of {word} stands at {reading.paths[met[pair].begin]} already",
                                   model.element, b"BrainStructure")
            met.setdefault(pair, model.element)


def range_spots(reading):
    for one in reading.brains():
        for model in one.models:
            wanted = model.count * (1 if model.type == "S" else 3)
            if len(model.numbers) != wanted:
                yield reading.spot(f"IndexCount {model.count} asks for {wanted} numbers, and it lists {len(model.numbers)}", model.element)
        times = [0] * one.length
        for model in one.models:
            for index in range(model.offset, min(model.offset + model.count, one.length)):
                times[index] += 1
        for wrong, words in ((lambda n: n == 0, "no model's range"), (lambda n: n > 1, "more than one model's range")):
            found = [index for index, n in enumerate(times) if wrong(n)]
            if found:
                more = f" and {len(found) - 1} more" if len(found) > 1 else ""
                yield reading.spot(f"index {found[0]}{more} of the map is in {words}", one.element)


def outside_spots(reading):
    for one in reading.brains():
        for model in one.models:
            listing = model.element.children()[0]
            bounds = [model.vertices] if model.type == "S" else one.volume
            for place, number in enumerate(model.numbers):
                bound = bounds[place % len(bounds)]
                if number >= bound:
                    words = f"vertex {number} is not below {bound}, the surface's number of vertices" if model.type == "S" else \
                        f"the voxel number {number} is not below {bound}, the volume's length on axis {place % 3}"
                    yield reading.spot(words, listing, word=place)


def twice_spots(reading):
    for one in reading.brains():
        met = {}
        for model in one.models:
            step = 1 if model.type == "S" else 3
            for n, record in enumerate(oracle.model_records(model)):
                key = oracle.location(record)
                told = model.numbers[step * n:step * n + step]
                if key in met:
                    name = f"vertex {told[0]}" if step == 1 else "voxel " + " ".join(map(str, told))
                    yield reading.spot(f"{name} stands at index {met[key]} already, and again at index {model.offset + n}",
                                       model.element.children()[0], word=step * n)
                met.setdefault(key, model.offset + n)


def twice_in(reading, table):
    """The keys that stand twice in a table of labels."""
    met = {}
    for key, label in table:
        if key in met:
            yield reading.spot(f"key {key} stands at {reading.paths[met[key].begin]} already", label, b"Key")
        met.setdefault(key, label)


def key_spots(reading):
    for one in reading.maps():
        for table in one.tables:
            yield from twice_in(reading, table)


def labels_spots(reading):
    for one in reading.maps():
        if one.kind == "labels":
            told = ", ".join(map(str, one.applies))
            yield reading.spot(f"labels on dimension {told}: the maps of labels may list one dimension in all", one.element,
                               b"AppliesToMatrixDimension")


SPOTS = {4: root_spots, 5: kind_spots, 8: dimension_spots, 9: length_spots, 10: pair_spots, 11: range_spots, 12: outside_spots,
         14: twice_spots, 24: key_spots, 25: labels_spots}


def said(element, attribute) -> str:
    value = element.value(attribute)
    return f"{attribute.decode()} is {shortened(value[:60])}: " if value is not None else ""


def likely(element, attribute) -> str:
    """The structure that a misspelt one may be."""
    if attribute != b"BrainStructure":
        return ""
    import difflib
    near = difflib.get_close_matches(element.value(attribute).decode("utf-8", "replace"), [w.decode() for w in rules.STRUCTURES], 1)
    return f"; the nearest is {near[0]}" if near else ""


def carried_spot(reading, refused) -> Spot:
    """The spot that a refusal of 6 or 7 carries with it."""
    element, attribute, word = refused.element, refused.attribute, refused.word
    if element is None:
        return Spot(None, None, refused.why or "where, the independent reading does not tell")
    if attribute:
        return reading.spot(said(element, attribute) + refused.why + likely(element, attribute), element, attribute)
    if isinstance(word, int):
        return reading.spot(f"{shortened(rules.words(element.text())[word][:60])}: {refused.why}", element, word=word)
    return reading.spot(refused.why, element)


def spots(text, lengths, refused):
    """The spots that a refusal is about, a few of them, and how many there are."""
    number = refused.number
    if number == 1:
        return [Spot(None, None, f"the lengths are {', '.join(map(str, lengths)) or 'none'}")]
    if number == 2:
        return [Spot(None, None, f"the text has {len(text)} bytes")]
    if number == 3:
        return [Spot(refused.place, None, stops(text, refused))]
    reading = Reading(text, lengths)
    return list(SPOTS[number](reading)) if number in SPOTS else [carried_spot(reading, refused)]


def explained(text: bytes, lengths: list):
    """(the number of the independent reading, the spots that it is about)."""
    room = max(sum(lengths), 0)
    try:
        oracle.accepted(text, lengths, room, room, oracle.TEXT_LIMIT)
    except Refused as refused:
        return refused.number, spots(text, lengths, refused)
    return 0, []


def explained_file(data):
    """The same of a NIfTI-2 file, and its header text; of a front that is refused the places are those of the file."""
    try:
        told = front.front(data)
    except Refused as refused:
        like = looks_like(bytes(data[:600])) if refused.number == 20 else ""
        return refused.number, [Spot(refused.place, None, like or refused.why)], b""
    text = bytes(data[told.start:told.start + told.length])
    return (*explained(text, told.lengths), text)
