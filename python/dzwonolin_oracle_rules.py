"""The paper's rules on elements (refusal 6) and on numbers (refusal 7), over documents of dzwonolin_oracle_markup."""
import collections
import re

from dzwonolin_oracle_markup import BLANKS, Refused

LENGTH_LIMIT = 1048576
VERTEX_LIMIT = 1048575
VOXEL_LIMIT = 65535
VOLUME_LIMIT = 65536

# ---------------------------------------------------------- elements, rule 6

KIND = b"CIFTI_INDEX_TYPE_"
KINDS = {KIND + b"BRAIN_MODELS": "brain", KIND + b"SERIES": "series", KIND + b"SCALARS": "scalars", KIND + b"LABELS": "labels"}
LATER_KINDS = (KIND + b"PARCELS",)
MODEL = b"CIFTI_MODEL_TYPE_"
MODELS = {MODEL + b"SURFACE": "S", MODEL + b"VOXELS": "V"}
UNITS = (b"SECOND", b"HERTZ", b"METER", b"RADIAN")
MANY = 10 ** 9


def structure_words():
    told = (
        "ACCUMBENS* ALL_WHITE_MATTER ALL_GREY_MATTER AMYGDALA* BRAIN_STEM CAUDATE* "
        "CEREBELLAR_WHITE_MATTER* CEREBELLUM CEREBELLUM* CEREBRAL_WHITE_MATTER* CORTEX CORTEX* "
        "DIENCEPHALON_VENTRAL* HIPPOCAMPUS* OTHER OTHER_GREY_MATTER OTHER_WHITE_MATTER "
        "PALLIDUM* PUTAMEN* THALAMUS*")
    words = []
    for word in told.split():
        if word.endswith("*"):
            words += [word[:-1] + "_LEFT", word[:-1] + "_RIGHT"]
        else:
            words.append(word)
    return {b"CIFTI_STRUCTURE_" + w.encode(): n for n, w in enumerate(words)}


STRUCTURES = structure_words()


def not_as_told(why, element=None, attribute=None):
    return Refused(6, why, element=element, attribute=attribute)


def told(names):
    return ", ".join(sorted(name.decode() for name in names))


def shape(element, attributes, children, text=False, optional=()):
    """The element has exactly these attributes, the optional ones or not, children within these bounds and,
    where it holds no text, only blanks between them."""
    names = {name for name, _ in element.attributes}
    more = names - {*attributes, *optional}
    if more:
        raise not_as_told(f"it has {told(more)}, which may not stand here", element, min(more))
    if set(attributes) - names:
        raise not_as_told(f"it has no {told(set(attributes) - names)}", element)
    counts = collections.Counter(c.name for c in element.children())
    for name in counts:
        if name not in children:
            raise not_as_told("this element may not stand here", element.child(name))
    for name, (least, most) in children.items():
        if not least <= counts[name] <= most:
            raise not_as_told(f"it holds {counts[name]} {name.decode()}, and must hold {least if counts[name] < least else most}"
                              + (" at least" if counts[name] < least < most else ""), element)
    found = element.text().strip(BLANKS)[:30].decode("utf-8", "replace")
    if not text and found:
        raise not_as_told(f"it holds text, {found!r}, where only blanks may stand", element)


def check_metadata(element):
    shape(element, [], {b"MD": (0, MANY)})
    for entry in element.children():
        shape(entry, [], {b"Name": (1, 1), b"Value": (1, 1)})
        for part in entry.children():
            shape(part, [], {}, text=True)


def check_named_map(element):
    shape(element, [], {b"MapName": (1, 1), b"MetaData": (0, 1)})
    shape(element.child(b"MapName"), [], {}, text=True)
    for data in element.children(b"MetaData"):
        check_metadata(data)


COLOURS = (b"Red", b"Green", b"Blue", b"Alpha")


def check_table(element):
    shape(element, [], {b"Label": (0, MANY)})
    for label in element.children():
        shape(label, [b"Key", *COLOURS], {}, text=True)


def check_labelled_map(element):
    shape(element, [], {b"MapName": (1, 1), b"LabelTable": (1, 1), b"MetaData": (0, 1)})
    shape(element.child(b"MapName"), [], {}, text=True)
    check_table(element.child(b"LabelTable"))
    for data in element.children(b"MetaData"):
        check_metadata(data)


TRANSFORMATION = b"TransformationMatrixVoxelIndicesIJKtoXYZ"


def check_volume(element):
    shape(element, [b"VolumeDimensions"], {TRANSFORMATION: (1, 1)})
    shape(element.child(TRANSFORMATION), [b"MeterExponent"], {}, text=True)


def check_model(element):
    kind = MODELS.get(element.value(b"ModelType"))
    if kind is None:
        raise not_as_told("the word is no type of model", element, b"ModelType")
    attributes = [b"IndexOffset", b"IndexCount", b"ModelType", b"BrainStructure"]
    listing = b"VoxelIndicesIJK"
    if kind == "S":
        attributes.append(b"SurfaceNumberOfVertices")
        listing = b"VertexIndices"
    shape(element, attributes, {listing: (1, 1)})
    shape(element.child(listing), [], {}, text=True)
    if element.value(b"BrainStructure") not in STRUCTURES:
        raise not_as_told("the word is no structure", element, b"BrainStructure")


def check_map(element):
    kind = KINDS.get(element.value(b"IndicesMapToDataType"))
    attributes = [b"AppliesToMatrixDimension", b"IndicesMapToDataType"]
    if kind == "series":
        attributes += [b"NumberOfSeriesPoints", b"SeriesStart", b"SeriesStep",
                       b"SeriesExponent", b"SeriesUnit"]
        shape(element, attributes, {})
        if element.value(b"SeriesUnit") not in UNITS:
            raise not_as_told("the word is no unit", element, b"SeriesUnit")
    elif kind == "scalars":
        shape(element, attributes, {b"NamedMap": (0, MANY)})
        for named in element.children():
            check_named_map(named)
    elif kind == "labels":
        shape(element, attributes, {b"NamedMap": (0, MANY)})
        for named in element.children():
            check_labelled_map(named)
    elif kind == "brain":
        shape(element, attributes, {b"BrainModel": (1, MANY), b"Volume": (0, 1)})
        for volume in element.children(b"Volume"):
            check_volume(volume)
        models = element.children(b"BrainModel")
        for model in models:
            check_model(model)
        voxels = any(MODELS[m.value(b"ModelType")] == "V" for m in models)
        if voxels and not element.children(b"Volume"):
            raise not_as_told("it holds a model of voxels and no Volume", element)
    else:
        raise not_as_told("the word is no kind of map", element, b"IndicesMapToDataType")


def check_elements(root):
    shape(root, [b"Version"], {b"Matrix": (1, 1)})
    matrix = root.child(b"Matrix")
    shape(matrix, [], {b"MetaData": (0, 1), b"MatrixIndicesMap": (1, MANY)})
    for data in matrix.children(b"MetaData"):
        check_metadata(data)
    for one in matrix.children(b"MatrixIndicesMap"):
        check_map(one)


# ------------------------------------------------------------ numbers, rule 7

WHOLE = re.compile(rb"[0-9]{1,7}\Z")
KEY = re.compile(rb"-?[0-9]{1,10}\Z")
EXPONENT = re.compile(rb"-?[0-9]{1,2}\Z")
DECIMAL = re.compile(rb"([+-]?)([0-9]+)(?:\.([0-9]+))?(?:[eE]([+-]?[0-9]{1,2}))?\Z")
DIMENSIONS = re.compile(rb"[0-9](?:,[0-9])*\Z")
BETWEEN = re.compile(rb"[ \t\n\r]+")


def not_a_number(why, word=None):
    return Refused(7, why, element=getattr(word, "element", None), attribute=getattr(word, "attribute", None), word=word)


def whole(word, least, most):
    if not WHOLE.match(word):
        raise not_a_number("it must be a whole number of 1 to 7 digits", word)
    if not least <= int(word) <= most:
        raise not_a_number(f"it must be from {least} to {most}", word)
    return int(word)


def exponent(word):
    if not EXPONENT.match(word) or not -30 <= int(word) <= 30:
        raise not_a_number("it must be a whole number from -30 to 30, of 1 or 2 digits", word)
    return int(word)


def decimal(word):
    """(the digits as a signed whole number, the power of ten: the written one less the places after the point)."""
    found = DECIMAL.match(word)
    if not found:
        raise not_a_number("it must be a decimal, as 2.0 or 7.2E-1", word)
    sign, before, after = found.group(1), found.group(2), found.group(3) or b""
    if len(before) + len(after) > 15:
        raise not_a_number("it has more than 15 digits", word)
    amount, power = int(before + after), int(found.group(4) or b"0") - len(after)
    if not -45 <= power <= 45:
        raise not_a_number("its power of ten, less the places behind the point, is not from -45 to 45", word)
    return (-amount if sign == b"-" else amount), power


def key(word):
    if not KEY.match(word) or not -2 ** 31 <= int(word) < 2 ** 31:
        raise not_a_number("it must be a whole number of 32 bits, of 1 to 10 digits", word)
    return int(word)


def key_of(label):
    """The key of a label, whose colours are from 0 to 1."""
    found = key(label.value(b"Key"))
    for colour in COLOURS:
        value = label.value(colour)
        amount, power = decimal(value)
        if amount < 0 or amount * 10 ** max(power, 0) > 10 ** max(-power, 0):
            raise not_a_number("a colour must be from 0 to 1", value)
    return found


def table_of(element):
    """(key, Label) of each Label of a table."""
    return [(key_of(label), label) for label in element.children()]


def dimension_list(word):
    if not DIMENSIONS.match(word):
        raise not_a_number("it must be single digits with commas", word)
    return [int(digit) for digit in word.split(b",")]


def volume_dimensions(word):
    parts = word.split(b",")
    if len(parts) != 3:
        raise not_a_number("it must be three numbers with commas", word)
    if not all(WHOLE.match(p) and 1 <= int(p) <= VOLUME_LIMIT for p in parts):
        raise not_a_number(f"each of the three must be from 1 to {VOLUME_LIMIT}, without blanks", word)
    return tuple(map(int, parts))


def words(text):
    return [w for w in BETWEEN.split(text) if w]


def listed(element, read):
    """What is read of each word of an element's text; a refusal tells which word it is about, from 0."""
    found = words(element.text())
    try:
        return [read(w) for w in found]
    except Refused as refused:
        refused.element = element
        refused.word = next(n for n, w in enumerate(found) if w is refused.word)
        raise


def check_transformation(element):
    numbers = listed(element, decimal)
    if len(numbers) != 16:
        raise Refused(7, f"it lists {len(numbers)} numbers, and must list sixteen", element=element)
    for (amount, power), wanted in zip(numbers[12:], (0, 0, 0, 1)):
        if amount * 10 ** max(power, 0) != wanted * 10 ** max(-power, 0):
            raise Refused(7, "its last row is not 0 0 0 1", element=element)


Model = collections.namedtuple("Model", "type structure offset count vertices numbers element")


class Map:
    """A MatrixIndicesMap with its numbers read."""

    def __init__(self, element):
        self.element = element
        self.kind = KINDS[element.value(b"IndicesMapToDataType")]
        self.applies = dimension_list(element.value(b"AppliesToMatrixDimension"))
        self.series_start = self.series_step = (0, 0)
        self.exponent = self.unit = 0
        self.models, self.volume, self.named, self.tables = [], None, [], []
        if self.kind == "series":
            self.length = whole(element.value(b"NumberOfSeriesPoints"), 1, LENGTH_LIMIT)
            self.series_start = decimal(element.value(b"SeriesStart"))
            self.series_step = decimal(element.value(b"SeriesStep"))
            self.exponent = exponent(element.value(b"SeriesExponent"))
            self.unit = UNITS.index(element.value(b"SeriesUnit"))
        elif self.kind == "scalars":
            self.named = element.children(b"NamedMap")
            self.length = len(self.named)
        elif self.kind == "labels":
            self.named = element.children(b"NamedMap")
            self.length = len(self.named)
            self.tables = [table_of(n.child(b"LabelTable")) for n in self.named]
        else:
            for volume in element.children(b"Volume"):
                self.volume = volume_dimensions(volume.value(b"VolumeDimensions"))
                matrix = volume.child(TRANSFORMATION)
                exponent(matrix.value(b"MeterExponent"))
                check_transformation(matrix)
            self.models = [read_model(m) for m in element.children(b"BrainModel")]
            self.length = sum(m.count for m in self.models)


def read_model(element):
    kind = MODELS[element.value(b"ModelType")]
    offset = whole(element.value(b"IndexOffset"), 0, LENGTH_LIMIT)
    count = whole(element.value(b"IndexCount"), 1, LENGTH_LIMIT)
    vertices = 0
    if kind == "S":
        vertices = whole(element.value(b"SurfaceNumberOfVertices"), 1, LENGTH_LIMIT)
        listing, most = element.child(b"VertexIndices"), VERTEX_LIMIT
    else:
        listing, most = element.child(b"VoxelIndicesIJK"), VOXEL_LIMIT
    numbers = listed(listing, lambda word: whole(word, 0, most))
    structure = STRUCTURES[element.value(b"BrainStructure")]
    return Model(kind, structure, offset, count, vertices, numbers, element)
