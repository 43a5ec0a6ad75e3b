"""An independent reading of the paper, to compare the proved reader with.

Written from the paper alone, in the paper's order: the markup grammar (dzwonolin_oracle_markup), the elements and numbers
(dzwonolin_oracle_rules), and here the conditions 1 to 19, the sheet and the morning card. It builds a whole tree, and each rule
stands by itself. The tests hold the library to it; `dzwonolin why` tells by it where a text breaks a rule.

    python3 python/dzwonolin_oracle.py < INPUT            the morning card of an input
    python3 python/dzwonolin_oracle.py --cases FILE       hold the card to cases in JSON lines
"""
import collections
import json
import re
import sys

import dzwonolin_oracle_markup as markup
import dzwonolin_oracle_rules as rules
from dzwonolin_oracle_markup import Refused
from dzwonolin_oracle_rules import LENGTH_LIMIT, VERTEX_LIMIT

TEXT_LIMIT = 16777216

# One dimension of an accepted answer; kind is 'brain', 'series', 'scalars' or 'labels'.
Dimension = collections.namedtuple("Dimension", "kind length start series_start series_step exponent unit")
# number 0 or the refusal; a refused answer has no dimensions and no records.
Answer = collections.namedtuple("Answer", "number dimensions records")

# -------------------------------------------------------------- the conditions

def refuse_if(number, applies):
    if applies:
        raise Refused(number)


def check_lengths(lengths):
    refuse_if(1, len(lengths) not in (2, 3))
    refuse_if(1, any(not 1 <= n <= LENGTH_LIMIT for n in lengths))


def maps_of(text, lengths, text_limit=TEXT_LIMIT):
    """Conditions 1 to 9; the maps in text order."""
    check_lengths(lengths)
    refuse_if(2, len(text) > text_limit)
    root = markup.document(text)
    refuse_if(4, root.name != b"CIFTI" or root.value(b"Version") != b"2")
    for matrix in root.children(b"Matrix"):
        for one in matrix.children(b"MatrixIndicesMap"):
            refuse_if(5, one.value(b"IndicesMapToDataType") in rules.LATER_KINDS)
    rules.check_elements(root)
    maps = [rules.Map(m) for m in root.child(b"Matrix").children(b"MatrixIndicesMap")]
    listed = collections.Counter(d for m in maps for d in m.applies)
    refuse_if(8, listed != collections.Counter(range(len(lengths))))
    refuse_if(9, any(m.length != lengths[d] for m in maps for d in m.applies))
    return maps


def check_ranges(one):
    """Condition 11 for a map: every list as long as told, every index in one range exactly."""
    for model in one.models:
        numbers = model.count * (1 if model.type == "S" else 3)
        refuse_if(11, len(model.numbers) != numbers)
    times = bytearray(one.length)
    for model in one.models:
        for index in range(model.offset, min(model.offset + model.count, one.length)):
            refuse_if(11, times[index])
            times[index] = 1
    refuse_if(11, 0 in times)


def check_inside(one):
    """Condition 12 for a map."""
    for model in one.models:
        if model.type == "S":
            refuse_if(12, max(model.numbers) >= model.vertices)
        else:
            for axis in range(3):
                refuse_if(12, max(model.numbers[axis::3]) >= one.volume[axis])


def model_records(model):
    front = ((model.type == "V") << 5 | model.structure) << 48
    if model.type == "S":
        return [front | vertex for vertex in model.numbers]
    return [front | i << 32 | j << 16 | k for i, j, k in
            zip(model.numbers[0::3], model.numbers[1::3], model.numbers[2::3])]


def location(record):
    """What may not come twice in a map: for a voxel the structure does not count."""
    if record >> 53:
        return 1 << 53 | record & (1 << 48) - 1
    return record


def map_records(one):
    records = [0] * one.length
    for model in one.models:
        records[model.offset:model.offset + model.count] = model_records(model)
    return records


def check_labels(maps):
    """Conditions 24 and 25."""
    for one in maps:
        for table in one.tables:
            refuse_if(24, len({key for key, _ in table}) < len(table))
    refuse_if(25, sum(len(one.applies) for one in maps if one.kind == "labels") > 1)


def accepted(text, lengths, records_room, work_room, text_limit):
    maps = maps_of(text, lengths, text_limit)
    brains = [m for m in maps if m.kind == "brain"]
    for one in brains:
        pairs = [(m.type, m.structure) for m in one.models]
        refuse_if(10, len(set(pairs)) < len(pairs))
    for one in brains:
        check_ranges(one)
    for one in brains:
        check_inside(one)
    refuse_if(13, records_room < sum(m.length for m in brains))
    refuse_if(13, work_room < max((m.length for m in brains), default=0))
    records, starts = [], {}
    for one in brains:
        stretch = map_records(one)
        refuse_if(14, len(set(map(location, stretch))) < len(stretch))
        starts[id(one)] = len(records)
        records += stretch
    check_labels(maps)
    dimensions = []
    for number in range(len(lengths)):
        one = next(m for m in maps if number in m.applies)
        dimensions.append(Dimension(one.kind, one.length, starts.get(id(one), 0),
                                    one.series_start, one.series_step, one.exponent, one.unit))
    return Answer(0, dimensions, records)


def read(text, lengths, records_room, work_room, text_limit=TEXT_LIMIT):
    """The answer on a text, with room for so many records and so much work."""
    try:
        return accepted(text, lengths, records_room, work_room, text_limit)
    except Refused as refusal:
        return Answer(refusal.number, [], [])


def map_name_place(text, lengths, dimension, index):
    """(number, start and length of the name in the text)."""
    try:
        maps = maps_of(text, lengths)
        refuse_if(18, not 0 <= dimension < len(lengths))
        one = next(m for m in maps if dimension in m.applies)
        refuse_if(18, one.kind not in ("scalars", "labels") or not 0 <= index < one.length)
        name = one.named[index].child(b"MapName")
        return 0, name.begin, name.end - name.begin
    except Refused as refusal:
        return refusal.number, 0, 0


def map_name(text, lengths, dimension, index):
    """(number, the bytes between the MapName tags as written)."""
    number, start, length = map_name_place(text, lengths, dimension, index)
    return number, text[start:start + length]


def map_names(text, lengths, dimension, room):
    """(number, start and length of each name in the text, in a row), with room for so many numbers."""
    try:
        maps = maps_of(text, lengths)
        refuse_if(18, not 0 <= dimension < len(lengths))
        one = next(m for m in maps if dimension in m.applies)
        refuse_if(18, one.kind not in ("scalars", "labels"))
        refuse_if(17, room < 2 * one.length)
        names = [named.child(b"MapName") for named in one.named]
        return 0, [n for name in names for n in (name.begin, name.end - name.begin)]
    except Refused as refusal:
        return refusal.number, []


def label_table(text, lengths, dimension, index):
    """(key, Label) of each Label of that map's table; 1 to 9, 24, 25, 18."""
    maps = maps_of(text, lengths)
    check_labels(maps)
    refuse_if(18, not 0 <= dimension < len(lengths))
    one = next(m for m in maps if dimension in m.applies)
    refuse_if(18, one.kind != "labels" or not 0 <= index < one.length)
    return one.tables[index]


def label_keys(text, lengths, dimension, index, room):
    """(number, the keys of that table), with room for so many."""
    try:
        keys = [key for key, _ in label_table(text, lengths, dimension, index)]
        refuse_if(17, room < len(keys))
        return 0, keys
    except Refused as refusal:
        return refusal.number, []


def label_name_place(text, lengths, dimension, index, key):
    """(number, start and length in the text of what stands between the tags of the Label of a key)."""
    try:
        found = [label for one, label in label_table(text, lengths, dimension, index) if one == key]
        refuse_if(19, not found)
        return 0, found[0].begin, found[0].end - found[0].begin
    except Refused as refusal:
        return refusal.number, 0, 0


def find(records, number):
    """(0, the first place) or (19, 0)."""
    for place, record in enumerate(records):
        if record == number:
            return 0, place
    return 19, 0


# ------------------------------------------------------------------ the sheet

def legal(record):
    if record >= 1 << 54:
        return False
    return bool(record >> 53) or record & (1 << 48) - 1 <= VERTEX_LIMIT


def pack(records, room=None):
    """(number, the sheet); room is the length of the slice lent for it."""
    if not 1 <= len(records) <= LENGTH_LIMIT:
        return 15, b""
    if not all(map(legal, records)):
        return 16, b""
    if room is not None and room < 4 + 7 * len(records):
        return 17, b""
    return 0, b"\x07" + len(records).to_bytes(3, "big") + b"".join((r << 2).to_bytes(7, "big") for r in records)


def from_five(word):
    """The record of the location that 5 bytes name: flag 1, structure 5, then a vertex, or i in 11 bits, j in 11, k in 12."""
    flag, structure, payload = word >> 39, word >> 34 & 31, word & (1 << 34) - 1
    if flag:
        i, j, k = payload >> 23, payload >> 12 & 2047, payload & 4095
        payload = i << 32 | j << 16 | k
    return flag << 53 | structure << 48 | payload


def from_seven(word):
    """The record of 7 bytes; a number that is no record where an end bit is not zero."""
    return 1 << 54 if word & 3 else word >> 2


def unpack(sheet, room=None):
    """(number, the records); room is the length of the slice lent for them."""
    if len(sheet) < 4 or sheet[0] not in (5, 7):
        return 15, []
    width, count = sheet[0], int.from_bytes(sheet[1:4], "big")
    if not 1 <= count <= LENGTH_LIMIT or len(sheet) != 4 + width * count:
        return 15, []
    words = [int.from_bytes(sheet[at:at + width], "big") for at in range(4, len(sheet), width)]
    records = [from_five(w) if width == 5 else from_seven(w) for w in words]
    if not all(map(legal, records)):
        return 16, []
    if room is not None and room < count:
        return 17, []
    return 0, records


# ------------------------------------------------------------ the morning card

CARD_TEXT = 32768
CARD_ROOM = 2048
LENGTHS_LINE = re.compile(rb"([0-9]{1,7}(?:,[0-9]{1,7})*)\n")


def record_line(index, record):
    structure, payload = record >> 48 & 31, record & (1 << 48) - 1
    if record >> 53:
        return f"{index} V {structure} {payload >> 32} {payload >> 16 & 65535} {payload & 65535}"
    return f"{index} S {structure} {payload}"


def card_lines(answer):
    if answer.number:
        return [f"refused {answer.number}"]
    lines, stretches = ["ok"], {}
    for number, one in enumerate(answer.dimensions):
        line = f"{number} {one.kind} {one.length}"
        if one.kind == "brain":
            line += f" {one.start}"
            stretches[one.start] = one.length
        lines.append(line)
    for start in sorted(stretches):
        for index in range(stretches[start]):
            lines.append(record_line(index, answer.records[start + index]))
    return lines


def lister(given):
    """The whole output for a whole standard input."""
    line = LENGTHS_LINE.match(given)
    if not line:
        return b"refused 1\n"
    lengths = [int(n) for n in line.group(1).split(b",")]
    answer = read(given[line.end():], lengths, CARD_ROOM, CARD_ROOM, CARD_TEXT)
    return "".join(l + "\n" for l in card_lines(answer)).encode()


def run_cases(path):
    passed = failed = 0
    with open(path, encoding="utf-8") as cases:
        for case in map(json.loads, cases):
            got = lister(case["in"].encode("latin-1"))
            if got == case["out"].encode("latin-1"):
                passed += 1
            else:
                failed += 1
                print(f"{case['name']}: wanted {case['out'][:60]!r}, got {got[:60]!r}")
    print(f"{passed} passed, {failed} failed")
    return 1 if failed else 0


if __name__ == "__main__":
    if sys.argv[1:2] == ["--cases"]:
        sys.exit(run_cases(sys.argv[2]))
    sys.stdout.buffer.write(lister(sys.stdin.buffer.read()))
