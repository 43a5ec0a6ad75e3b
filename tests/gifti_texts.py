"""GIFTI label files from a seed, right ones and ones with something wrong.

    python3 tests/gifti_texts.py --count 3000 --seed 1     the spread of answers, by the independent reading
    python3 tests/gifti_texts.py --write DIR --count 50    the texts as files

`case(seed, number)` is the same file in every run, whatever came before it.
"""
import argparse
import base64
import collections
import pathlib
import random
import struct
import sys

import byte_damages
import damages
import documents
from documents import Node

# A text with what is asked of it; `aim` is what its last damage aims at.
Case = collections.namedtuple("Case", "label aim text array room")

KEYS = [0, 1, 2, 3, 7, 9, 10, -1, -2, 256, 65536, 16909060, 2147483647, -2147483648]
SIZES = [1, 1, 2, 3, 4, 5, 8, 21, 60]
ORDERS = {"BigEndian": ">", "LittleEndian": "<"}


def coded(keys, endian):
    """These keys as Base64, four bytes each, in an order of bytes."""
    return base64.b64encode(struct.pack(f"{ORDERS[endian]}{len(keys)}i", *keys)).decode()


class Labels(documents.Document):
    """A root with a table of labels and arrays of its keys; `keys` are those of each array."""

    def __init__(self, rng, size):
        self.rng = rng
        known = rng.sample(KEYS, rng.choice([1, 2, 3, 6])) + rng.sample(range(100, 900), rng.choice([0, 0, 3, 40]))
        self.keys = [[rng.choice(known) for _ in range(rng.randint(1, size))] for _ in range(rng.choice([1, 1, 1, 2, 3]))]
        arrays = [self.array(keys) for keys in self.keys]
        front = [self.metadata()] if rng.random() < 0.6 else []
        self.root = Node("GIFTI", [("Version", "1.0"), ("NumberOfDataArrays", self.whole(len(arrays)))],
                         front + [self.table(known)] + arrays)

    def arrays(self):
        return self.root.children("DataArray")

    def array(self, keys):
        rng, endian = self.rng, self.rng.choice(sorted(ORDERS))
        plain = rng.random() < 0.5
        one = Node("DataArray", [("Intent", "NIFTI_INTENT_LABEL"), ("DataType", "NIFTI_TYPE_INT32"),
                                 ("ArrayIndexingOrder", rng.choice(["RowMajorOrder", "ColumnMajorOrder"])),
                                 ("Dimensionality", self.whole(1)), ("Dim0", self.whole(len(keys))),
                                 ("Encoding", "ASCII" if plain else "Base64Binary")])
        if not plain or rng.random() < 0.6:
            one.put("Endian", endian)
        if rng.random() < 0.6:
            one.put("ExternalFileName", self.phrase())
            one.put("ExternalFileOffset", rng.choice(["", "0", "x"]))
        data = Node("Data", words=[self.spelt(key) for key in keys]) if plain else Node("Data", (), [self.blanked(coded(keys, endian))])
        one.contents = [data] + ([self.metadata()] if rng.random() < 0.5 else [])
        rng.shuffle(one.contents)
        return one

    def spelt(self, key):
        """A key with zeros before it now and then, ten digits at most."""
        if self.rng.random() < 0.95:
            return str(key)
        return "-" * (key < 0 or key == 0 and self.rng.random() < 0.5) + str(abs(key)).zfill(self.rng.randint(1, 10))

    def blanked(self, letters):
        """Letters with blanks among them, few or none."""
        if self.rng.random() < 0.6:
            return letters
        return "".join(letter + self.rng.choice(documents.MANY_BLANKS) * (self.rng.random() < 0.2) for letter in letters)


# ------------------------------------------------------------------- damages

BAD_KEYS = ["", "-", "+1", "--1", "1-", "1.0", " 1", "1 ", "0x1", "00000000001", "-00000000001", "2147483648", "-2147483649",
            "4294967296", "99999999999", "x", "1,", "\u0661", "1e3"]
OTHER_WORDS = {"Encoding": ["GZipBase64Binary", "ExternalFileBinary", "ascii", "Base64", "ASCII ", ""],
               "Intent": ["NIFTI_INTENT_SHAPE", "NIFTI_INTENT_NONE", "NIFTI_INTENT_LABELS", ""],
               "DataType": ["NIFTI_TYPE_FLOAT32", "NIFTI_TYPE_UINT8", "INT32", ""]}
WRONG_WORDS = {
    "ArrayIndexingOrder": ["RowMajor", "rowmajororder", "", "RowMajorOrder "],
    "Endian": ["Little", "bigendian", "", "BigEndian "],
}


def pick_array(rng, doc, encoding=None):
    return damages.pick(rng, [a for a in doc.arrays() if encoding in (None, a.get("Encoding"))])


def version(rng, doc):
    if rng.random() < 0.5:
        doc.root.name = rng.choice(["gifti", "CIFTI", "GIFTI2", "x:GIFTI"])
    else:
        doc.root.put("Version", rng.choice(["", "1", "1.00", "01.0", " 1.0", "2.0", "1,0"]))
    return True


def schema(rng, doc):
    doc.root.put(rng.choice(["xmlns:xsi", "xsi:noNamespaceSchemaLocation", "Dim1"]), "http://www.w3.org/2001/XMLSchema-instance")
    return True


def order(rng, doc):
    """The root's children in another order."""
    before = [c.name for c in doc.root.contents]
    rng.shuffle(doc.root.contents)
    return [c.name for c in doc.root.contents] != before


def attribute_less(rng, doc):
    one = pick_array(rng, doc)
    one.drop(rng.choice(["Intent", "DataType", "ArrayIndexingOrder", "Dimensionality", "Dim0", "Encoding", "Endian"]))
    return True


def wrong_word(rng, doc):
    name = rng.choice(sorted(WRONG_WORDS))
    pick_array(rng, doc).put(name, rng.choice(WRONG_WORDS[name]))
    return True


def child_more(rng, doc):
    node = rng.choice([doc.root] + doc.arrays() + doc.root.all("Data"))
    name = rng.choice(["CoordinateSystemTransformMatrix", "Data", "DataArray", "LabelTable", "MetaData", "Label"])
    node.contents.append(Node(name))
    return (node.name, name) not in (("DataArray", "MetaData"),)


def child_less(rng, doc):
    node = rng.choice([doc.root] + doc.arrays())
    name = rng.choice(["LabelTable", "Data"])
    kept = [c for c in node.contents if not (isinstance(c, Node) and c.name == name)]
    gone, node.contents = len(kept) < len(node.contents), kept
    return gone


def other_word(rng, doc):
    name = rng.choice(sorted(OTHER_WORDS))
    pick_array(rng, doc).put(name, rng.choice(OTHER_WORDS[name]))
    return True


def number(rng, doc):
    node, name = rng.choice([(doc.root, "NumberOfDataArrays"), (pick_array(rng, doc), "Dim0"), (pick_array(rng, doc), "Dimensionality")])
    bad = [w for w in damages.BAD_WHOLES if name != "NumberOfDataArrays" or w not in ("1048577", "9999999")]
    node.put(name, rng.choice(bad + ["0", "2"] * (name == "Dimensionality") + ["0"] * (name == "Dim0")))
    return True


def label_number(rng, doc):
    label = rng.choice(doc.root.all("Label"))
    if rng.random() < 0.5:
        label.put("Key", rng.choice(BAD_KEYS))
    else:
        label.put(rng.choice(["Red", "Green", "Blue", "Alpha"]), rng.choice(["", "1.1", "-0.1", "nan", "255", "1.", "1.00000000000001"]))
    return True


def listed_key(rng, doc):
    one = pick_array(rng, doc, "ASCII")
    if one:
        words = one.children("Data")[0].words
        words[rng.choice([0, -1, rng.randrange(len(words))])] = rng.choice([b for b in BAD_KEYS if b.strip() == b and b])
    return one is not None


def coded_text(rng, doc):
    """A text that is no Base64: another letter, padding too few, too many or inside, bits that are left over, more behind."""
    one = pick_array(rng, doc, "Base64Binary")
    if not one:
        return False
    data = one.children("Data")[0]
    text = data.contents[0]
    at = rng.randrange(len(text))
    letters = text.rstrip("= \t\r\n")
    data.contents[0] = rng.choice([text[:at] + rng.choice("*-_=.&\u00e9\u00a0") + text[at + 1:], text[:at] + text[at + 1:], letters,
                                   letters + "=", letters + "===", text + "=", text + "AAAA", text + "A", "=", "====",
                                   letters[:-1] + rng.choice("BDHf1/") + text[len(letters):]])
    return True


def count(rng, doc):
    doc.root.put("NumberOfDataArrays", rng.choice(["0", "00", "9999999", str(len(doc.arrays()) + rng.choice([-1, 1, 5]))]))
    return True


def key_twice(rng, doc):
    labels = doc.root.all("Label")
    if len(labels) < 2:
        return False
    one, other = rng.sample(labels, 2)
    key = one.get("Key")
    other.put("Key", rng.choice([key, ("-" if key[0] == "-" else "") + "0" + key.lstrip("-")]))
    return True


def length(rng, doc):
    """More or fewer keys than Dim0, or bytes that are not four a key."""
    one = pick_array(rng, doc)
    data = one.children("Data")[0]
    if rng.random() < 0.3:
        one.put("Dim0", str(max(1, int(one.get("Dim0")) + rng.choice([-1, 1, 1, 1000]))))
    elif data.words is not None:
        data.words = rng.choice([data.words[1:], data.words + data.words[:1], []])
    else:
        kept = base64.b64decode(data.contents[0])
        data.contents[0] = base64.b64encode(rng.choice([kept[:-1], kept[:-4], kept + b"\0", kept + kept[:4], b"", kept[:3]])).decode()
    return True


def unknown(rng, doc):
    """A label less, or an order of bytes that is exchanged."""
    one = pick_array(rng, doc, "Base64Binary")
    if one and rng.random() < 0.4:
        one.put("Endian", "BigEndian" if one.get("Endian") == "LittleEndian" else "LittleEndian")
        return True
    used = {key for keys in doc.keys for key in keys}
    table = doc.root.children("LabelTable")[0]
    lost = rng.choice([label for label in table.contents if int(label.get("Key")) in used])
    table.contents.remove(lost)
    return True


ON_LABELS = [(4, version), (6, schema), (6, order), (6, attribute_less), (6, attribute_less), (6, wrong_word), (6, child_more),
             (6, child_less), (29, other_word), (29, other_word), (29, other_word), (7, number), (7, label_number), (7, listed_key),
             (7, coded_text), (7, coded_text), (7, coded_text), (9, count), (24, key_twice), (24, key_twice), (30, length), (30, length),
             (30, length), (31, unknown), (31, unknown), (31, unknown), (6, damages.stray_text), (6, damages.attribute_renamed),
             (6, damages.child_renamed), (3, damages.attribute_twice), (3, damages.deep)]


def spoil(rng, doc):
    """One damage, or two; the first of them that the order of the numbers has, and their names."""
    aims, names = [], []
    for _ in range(rng.choice([1, 1, 1, 2])):
        aim, damage = rng.choice(ON_LABELS)
        try:
            done = damage(rng, doc)
        except (ValueError, IndexError, TypeError, AttributeError):
            done = False    # a damage before this one took away what it needs
        if done:
            aims.append(aim)
            names.append(damage.__name__)
    return (min(aims, key=[3, 4, 6, 29, 7, 9, 24, 30, 31].index) if aims else 0), "+".join(names) or "valid"


def asked(rng, doc):
    """The array that is asked for, and how many keys there is room for; and what that aims at."""
    place = rng.randrange(len(doc.keys))
    room, way = len(doc.keys[place]) + rng.choice([0, 0, 1, 5]), rng.random()
    if way < 0.06:
        return rng.choice([len(doc.keys), 7, 2 ** 32, 2 ** 64 - 1]), room, 18
    if way < 0.12:
        return place, rng.choice([0, len(doc.keys[place]) - 1]), 17
    return place, room, 0


def case(seed, number):
    """The file of this seed and number."""
    rng = random.Random(f"{seed}/gifti/{number}")
    doc = Labels(rng, rng.choice(SIZES) if rng.random() < 0.98 else 3000)
    style = documents.Style(rng, rng.choice([0, 0, 0.02, 0.1, 0.3]))
    array, room, aim = asked(rng, doc)
    label, way = {18: "no such array", 17: "room"}.get(aim, "valid"), rng.random()
    if way < 0.6:
        found, label = spoil(rng, doc)
        aim = found or aim
    text = style.write(doc.root)
    if way > 0.9:
        damage = rng.choice(byte_damages.ON_BYTES)
        text, label, aim = damage(rng, text), damage.__name__, None
    return Case(label, aim, text, array, room)


# ------------------------------------------------------------------ the spread

def main():
    options = argparse.ArgumentParser(description=__doc__, formatter_class=argparse.RawDescriptionHelpFormatter)
    options.add_argument("--count", type=int, default=3000)
    options.add_argument("--seed", type=int, default=1)
    options.add_argument("--write", metavar="DIR")
    given = options.parse_args()
    sys.path.append(str(pathlib.Path(__file__).resolve().parent.parent / "python"))
    import dzwonolin_oracle_gifti as oracle
    answers, aims = collections.Counter(), collections.Counter()
    for number in range(given.count):
        one = case(given.seed, number)
        got = oracle.gifti_keys(one.text, one.array, one.room)[0]
        answers[got] += 1
        aims[one.aim, one.aim == got] += one.aim is not None
        if given.write:
            pathlib.Path(given.write).mkdir(parents=True, exist_ok=True)
            (pathlib.Path(given.write) / f"{number:05}.label.gii").write_bytes(one.text)
            print(number, one.label, one.aim, one.array, one.room, got)
    for number in sorted(answers):
        hit, missed = aims[number, True], aims[number, False]
        print(f"answer {number:2}: {answers[number]:7} files; of {hit + missed} aimed at it, {hit} gave it")


if __name__ == "__main__":
    main()
