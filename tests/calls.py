"""One function for each call of a case: what is given by name, and what is answered by name, through the built library.

Texts and parts are strings of bytes as latin-1, sheets are in hexadecimal. Slices lent for writing are given with their contents and
answered whole. A decimal is [amount, power of ten]. A call that is not here is not in the library yet.
"""
import array as arrays
import ctypes
import pathlib
import subprocess
import sys
import tempfile

HERE = pathlib.Path(__file__).resolve().parent
sys.path[:0] = [str(HERE), str(HERE.parent / "python")]

import dzwonolin  # noqa: E402
import served  # noqa: E402

served.ready(dzwonolin)
BUILT = HERE.parent / "target" / "bin" / "outline"
OUTLINE = [BUILT]

# what a text writes is shown by the outline, where it is built
passed_over = () if BUILT.exists() else ("document",)


def not_yet(**given):
    """Refuses what the library cannot be given yet."""
    for name, value in given.items():
        if value is not None:
            raise NotImplementedError(f"the library takes no {name} yet")


def fold(record):
    """A record's number, from ['S', structure, vertex], ['V', structure, i, j, k] or the number itself."""
    if isinstance(record, int):
        return record
    if record[0] == "S":
        return record[1] << 48 | record[2]
    return 1 << 53 | record[1] << 48 | record[2] << 32 | record[3] << 16 | record[4]


def lent_numbers(values):
    return (ctypes.c_uint64 * len(values))(*(fold(v) for v in values))


def told(dimension):
    """A dimension of the module, by the names of the cases."""
    return {**dimension._asdict(), **{name: list(getattr(dimension, name)) for name in ("series_start", "series_step")}}


def read(text, lengths, records, work, beginnings=None):
    not_yet(beginnings=beginnings)
    lent, space = lent_numbers(records), lent_numbers([0] * work)
    answer = dzwonolin.read(text.encode("latin-1"), lengths, lent, space)
    if any(space):
        raise ValueError("the work space is not zero")
    return {"number": answer.number, "dimensions": [told(d) for d in answer.dimensions], "records": list(lent)}


def document(text):
    """The document that a text writes, as [name, attributes, contents], from what the built outline shows; its refusal else."""
    shown = subprocess.run(OUTLINE, input=text.encode("latin-1"), capture_output=True, timeout=60, check=True).stdout.decode("latin-1")
    if shown.startswith("refused"):
        return {"document": None, "number": int(shown.split()[1])}
    open_ones = [["", [], []]]
    for line in shown.splitlines():
        if line[0] == "<":
            open_ones.append([line[1:], [], []])
        elif line[0] == "@":
            name, value = line[1:].split(" ")
            open_ones[-1][1].append([name, bytes.fromhex(value).decode("latin-1")])
        elif line[0] == "#":
            open_ones[-1][2].append(bytes.fromhex(line[1:]).decode("latin-1"))
        else:
            one = open_ones.pop()
            open_ones[-1][2].append(one)
    return {"document": open_ones[0][2][0]}


def map_name(text, lengths, dimension, index):
    number, part = dzwonolin.map_name(text.encode("latin-1"), lengths, dimension, index)
    return {"number": number, "part": part.decode("latin-1")}


def map_names(text, lengths, dimension, places):
    """How many names there are, and the list lent with two numbers a name; each name as map_name tells it alone."""
    given, lent, count = text.encode("latin-1"), lent_numbers(places), lent_numbers([0])
    sizes = dzwonolin._numbers(lengths)
    number = dzwonolin._library().dz_map_names(given, len(given), sizes, len(sizes), dimension, lent, len(lent), count, 1)
    for n in range(count[0]):
        if dzwonolin.map_name(given, lengths, dimension, n) != (0, given[lent[2 * n]:lent[2 * n] + lent[2 * n + 1]]):
            raise ValueError(f"name {n} is told otherwise alone")
    return {"number": number, "count": count[0], "places": list(lent)}


def label_keys(text, lengths, dimension, index, keys):
    lent, count = (ctypes.c_int32 * len(keys))(*keys), lent_numbers([7])
    sizes = lent_numbers(lengths)
    number = dzwonolin.call_label_keys(text.encode("latin-1"), sizes, dimension, index, lent, count)
    if number != 17 and dzwonolin.label_keys(text.encode("latin-1"), lengths, dimension, index) != (number, lent[:count[0]]):
        raise ValueError("with room of its own the keys are answered otherwise")
    return {"number": number, "count": count[0], "keys": list(lent)}


def label_name(text, lengths, dimension, index, key):
    number, part = dzwonolin.label_name(text.encode("latin-1"), lengths, dimension, index, key)
    return {"number": number, "part": part.decode("latin-1")}


def gifti_keys(text, array, keys):
    lent, count = (ctypes.c_int32 * len(keys))(*keys), lent_numbers([7])
    given = text.encode("latin-1")
    with dzwonolin._Lent(given) as bytes_lent:
        number = dzwonolin.call_gifti_keys(bytes_lent, array, lent, count)
    if number != 17 and dzwonolin.gifti_keys(given, array) != (number, arrays.array("i", lent[:count[0]])):
        raise ValueError("with room of its own the keys are answered otherwise")
    return {"number": number, "count": count[0], "keys": list(lent)}


def find(records, number):
    refusal, place = dzwonolin.find([fold(r) for r in records], number)
    return {"number": refusal, "place": place}


def pack(records, sheet):
    lent, count = lent_numbers(records), lent_numbers([0])
    room = bytearray.fromhex(sheet)
    slot = (ctypes.c_ubyte * len(room)).from_buffer(room) if room else (ctypes.c_ubyte * 0)()
    number = dzwonolin._library().dz_pack(lent, len(lent), slot, len(room), count, 1)
    return {"number": number, "written": count[0], "sheet": bytes(slot).hex()}


def unpack(sheet, records):
    given, lent, count = bytes.fromhex(sheet), lent_numbers(records), lent_numbers([0])
    number = dzwonolin._library().dz_unpack(given, len(given), lent, len(lent), count, 1)
    return {"number": number, "count": count[0], "records": list(lent)}


def pack_unpack(records, sheet):
    packed = pack(records, sheet)
    number, back = dzwonolin.unpack(bytes.fromhex(packed["sheet"])[:packed["written"]])
    return {"number": packed["number"] or number, "sheet": packed["sheet"], "back": back}


def nii(file):
    """The front of a file, and the card of it, by its bytes and by a mapped path."""
    data = bytes.fromhex(file)
    front, answer = dzwonolin.front(data), dzwonolin.read_file(data)
    with tempfile.NamedTemporaryFile(suffix=".nii") as mapped:
        mapped.write(data)
        mapped.flush()
        if (dzwonolin.front(mapped.name), dzwonolin.read_file(mapped.name)) != (front, answer):
            raise ValueError("a mapped file is answered otherwise")
    card = "".join(line + "\n" for line in dzwonolin.card(answer))
    return {"number": front.number, "lengths": front.lengths, "start": front.start, "length": front.length, "card": card}


def read_file(file, records, work, beginnings=None):
    not_yet(beginnings=beginnings)
    lent, space = lent_numbers(records), lent_numbers([0] * work)
    answer = dzwonolin.read_file(bytes.fromhex(file), lent, space)
    if any(space):
        raise ValueError("the work space is not zero")
    return {"number": answer.number, "lengths": [d.length for d in answer.dimensions],
            "kinds": [d.kind for d in answer.dimensions], "records": list(lent)}


# ---- the short list

def model_list(records, room):
    number, models = dzwonolin.model_list([fold(r) for r in records], room)
    return {"number": number, "models": [[m.first, m.count, "SV".index(m.type), m.structure] for m in models]}


def structure_at(models, index):
    number, kind, structure = dzwonolin.structure_at(models, index)
    return {"number": number, "type": "SV".index(kind) if kind else 0, "structure": structure}


def index_of(models, records, record):
    number, index = dzwonolin.index_of(models, [fold(r) for r in records], fold(record))
    return {"number": number, "index": index}


# ---- two sheets side by side

def compare(first_sheet, second_sheet, work):
    space = lent_numbers([7] * work)
    told = dzwonolin.compare(bytes.fromhex(first_sheet), bytes.fromhex(second_sheet), space)
    if any(space):
        raise ValueError("the work space is not zero")
    return {"number": told.number, "same": told.same, "moved": told.moved, "first": told.first, "second": told.second,
            "tail": told.part.hex()}
