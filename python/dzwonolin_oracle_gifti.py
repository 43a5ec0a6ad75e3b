"""An independent reading of GIFTI label files, from the paper's words on them, over dzwonolin_oracle_markup and _rules.

The rules stand in the order of their numbers: 2, 3, 4, 6, 29, 7, 9, 24, 18, 30, 31, 17. Of all but 18 and 17 every array is asked.
"""
import base64
import binascii
import struct

import dzwonolin_oracle_markup as markup
import dzwonolin_oracle_rules as rules
from dzwonolin_oracle_markup import BLANKS, Refused
from dzwonolin_oracle_rules import LENGTH_LIMIT, MANY, not_as_told

TEXT_LIMIT = 16777216
COUNT_LIMIT = 9999999
ORDER = (b"MetaData", b"LabelTable", b"DataArray")
INDEXING = (b"RowMajorOrder", b"ColumnMajorOrder")
ENDIANS = {b"BigEndian": ">", b"LittleEndian": "<"}
ATTRIBUTES = (b"ArrayIndexingOrder", b"DataType", b"Intent", b"Encoding", b"Dimensionality", b"Dim0")
OPTIONAL = (b"ExternalFileName", b"ExternalFileOffset", b"Endian")
PLAIN, CODED = b"ASCII", b"Base64Binary"
READ = {b"Encoding": (PLAIN, CODED), b"Intent": (b"NIFTI_INTENT_LABEL",), b"DataType": (b"NIFTI_TYPE_INT32",)}


# ------------------------------------------------------------- elements: 6, 29

def check_array(element):
    shape_of_array = {b"MetaData": (0, 1), b"Data": (1, 1)}
    rules.shape(element, ATTRIBUTES, shape_of_array, optional=OPTIONAL)
    if element.value(b"ArrayIndexingOrder") not in INDEXING:
        raise not_as_told("the word is no order of indexing", element, b"ArrayIndexingOrder")
    endian = element.value(b"Endian")
    if endian is None and element.value(b"Encoding") == CODED:
        raise not_as_told("it has no Endian, which Base64Binary needs", element)
    if endian is not None and endian not in ENDIANS:
        raise not_as_told("the word is no order of bytes", element, b"Endian")
    for data in element.children(b"MetaData"):
        rules.check_metadata(data)
    rules.shape(element.child(b"Data"), [], {}, text=True)


def check_elements(root):
    rules.shape(root, [b"Version", b"NumberOfDataArrays"], {b"MetaData": (0, 1), b"LabelTable": (1, 1), b"DataArray": (1, MANY)})
    ranks = [ORDER.index(child.name) for child in root.children()]
    for child, rank, before in zip(root.children()[1:], ranks[1:], ranks):
        if rank < before:
            raise not_as_told(f"{child.name.decode()} stands behind {ORDER[before].decode()}", child)
    for data in root.children(b"MetaData"):
        rules.check_metadata(data)
    rules.check_table(root.child(b"LabelTable"))
    for array in root.children(b"DataArray"):
        check_array(array)


def check_read(array):
    for name, words in READ.items():
        if array.value(name) not in words:
            raise Refused(29, f"only {' and '.join(w.decode() for w in words)} is read", element=array, attribute=name)


# ------------------------------------------------------------------ numbers: 7

def coded(element):
    """The bytes that the text of an element encodes by RFC 3548, its blanks left out: those whose encoding it is."""
    letters = element.text().translate(None, BLANKS)
    try:
        found = base64.b64decode(letters, validate=True)
    except (binascii.Error, ValueError):
        found = None
    if found is None or base64.b64encode(found) != letters:
        raise Refused(7, "its text is no Base64 of RFC 3548: letters in fours, padded, and the bits that are left over 0", element=element)
    return found


class Array:
    """A DataArray with its numbers read: how many there are to be, and the keys; None where its bytes are not four a key."""

    def __init__(self, element):
        self.element, data = element, element.child(b"Data")
        rules.whole(element.value(b"Dimensionality"), 1, 1)
        self.length = rules.whole(element.value(b"Dim0"), 1, LENGTH_LIMIT)
        if element.value(b"Encoding") == PLAIN:
            self.keys = rules.listed(data, rules.key)
            self.told = f"it lists {len(self.keys)} numbers"
        else:
            found, order = coded(data), ENDIANS[element.value(b"Endian")]
            self.keys = list(struct.unpack(f"{order}{len(found) // 4}i", found)) if len(found) % 4 == 0 else None
            self.told = f"it holds {len(found)} bytes, four for each number"

    def fits(self):
        return self.keys is not None and len(self.keys) == self.length


class Labels:
    """What a GIFTI label file says that none of 2 to 7 refuses."""

    def __init__(self, root):
        self.root = root
        self.count = rules.whole(root.value(b"NumberOfDataArrays"), 0, COUNT_LIMIT)
        self.table = rules.table_of(root.child(b"LabelTable"))
        self.arrays = [Array(one) for one in root.children(b"DataArray")]

    def known(self):
        return {key for key, _ in self.table}


def root_of(text, text_limit=TEXT_LIMIT):
    """The root of a text that 2, 3 and 4 do not refuse."""
    if len(text) > text_limit:
        raise Refused(2)
    root = markup.document(text)
    if root.name != b"GIFTI" or root.value(b"Version") != b"1.0":
        raise Refused(4)
    return root


def labels_of(root):
    """6, 29 and 7."""
    check_elements(root)
    for array in root.children(b"DataArray"):
        check_read(array)
    return Labels(root)


# ------------------------------------------------------------------- the answer

def accepted(text, array, room):
    file = labels_of(root_of(text))
    known = file.known()
    rows = [(9, file.count != len(file.arrays)),
            (24, len(known) < len(file.table)),
            (18, not 0 <= array < len(file.arrays)),
            (30, not all(one.fits() for one in file.arrays)),
            (31, any(not known.issuperset(one.keys or ()) for one in file.arrays))]
    for number, applies in rows:
        if applies:
            raise Refused(number)
    keys = file.arrays[array].keys
    if room < len(keys):
        raise Refused(17)
    return keys


def gifti_keys(text, array, room):
    """(0, the keys of the array at a place, from 0) with room for so many, or (number, [])."""
    try:
        return 0, accepted(text, array, room)
    except Refused as refused:
        return refused.number, []
