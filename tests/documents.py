"""Documents made by chance, and many ways to write each of them down.

A Node is an element. Its numbers and words are strings, so that a damage can
put anything there. `Style.write` writes a document by the markup grammar:
either quote, blanks wherever they may stand, comments inside text (numbers
too), references, CDATA, and the declaration and a DOCTYPE or none.
"""

STRUCTURES = (
    "ACCUMBENS_LEFT ACCUMBENS_RIGHT ALL_WHITE_MATTER ALL_GREY_MATTER AMYGDALA_LEFT AMYGDALA_RIGHT "
    "BRAIN_STEM CAUDATE_LEFT CAUDATE_RIGHT CEREBELLAR_WHITE_MATTER_LEFT CEREBELLAR_WHITE_MATTER_RIGHT "
    "CEREBELLUM CEREBELLUM_LEFT CEREBELLUM_RIGHT CEREBRAL_WHITE_MATTER_LEFT CEREBRAL_WHITE_MATTER_RIGHT "
    "CORTEX CORTEX_LEFT CORTEX_RIGHT DIENCEPHALON_VENTRAL_LEFT DIENCEPHALON_VENTRAL_RIGHT "
    "HIPPOCAMPUS_LEFT HIPPOCAMPUS_RIGHT OTHER OTHER_GREY_MATTER OTHER_WHITE_MATTER PALLIDUM_LEFT "
    "PALLIDUM_RIGHT PUTAMEN_LEFT PUTAMEN_RIGHT THALAMUS_LEFT THALAMUS_RIGHT").split()
UNITS = ["SECOND", "HERTZ", "METER", "RADIAN"]
TRANSFORMATION = "TransformationMatrixVoxelIndicesIJKtoXYZ"
PHRASES = ["", " ", "a", "map 1", "rest & task", "x < y", "\"both\" 'quotes'", "zażółć", "𝛼-band", "]]", "]] >",
           "&lt;", "&amp;lt;", "tab\there", "two\r\nlines", "\r", "\r\r\n", "\n\r", "old\rmac", "\ufeff", "\u00a0",
            "\x7f", "5 > 4", "--", "]]>", "<!--no-->"]
MANY_BLANKS = [" ", " ", " ", "\n", "\t", "\r", "  ", "\r\n", " \n\t"]
COMMENTS = ["", " ", "a", "<b>&", "]]>", "- -", "é", "12", "]]", "<?xml?>", "&amp;", "\t\n\r", "<![CDATA[", "->", "> "]
DOCTYPES = ["<!DOCTYPE>", "<!DOCTYPE CIFTI>", '<!DOCTYPE GIFTI SYSTEM "http://www.nitrc.org/frs/download.php/1594/gifti.dtd">',
            "<!DOCTYPEa\r\n-->", "<!DOCTYPE a PUBLIC '-//é&' \"'/?>"]


def data(value):
    """CDATA that reads as these characters, or two of them and more where ]]> stands among them."""
    return "<![CDATA[" + value.replace("]]>", "]]]]><![CDATA[>") + "]]>"


class Node:
    """An element: name, attributes in order, contents (Nodes and strings), and
    `words` where its text is a list parted by blanks."""

    def __init__(self, name, attributes=(), contents=(), words=None):
        self.name = name
        self.attributes = [list(a) for a in attributes]
        self.contents = list(contents)
        self.words = words

    def get(self, name):
        return next((a[1] for a in self.attributes if a[0] == name), None)

    def put(self, name, value):
        for one in self.attributes:
            if one[0] == name:
                one[1] = value
                return
        self.attributes.append([name, value])

    def drop(self, name):
        self.attributes = [a for a in self.attributes if a[0] != name]

    def children(self, name=None):
        return [c for c in self.contents if isinstance(c, Node) and name in (None, c.name)]

    def all(self, name=None):
        """This element and all below it, or those of one name."""
        found = [self] if name in (None, self.name) else []
        for child in self.children():
            found += child.all(name)
        return found


class Document:
    """A root with the lengths it suits, and the room its records need."""

    def __init__(self, rng, size):
        self.rng = rng
        self.lengths = [0] * rng.choice([2, 2, 3])
        self.records = self.longest = 0
        self.labelled = False
        maps = [self.one_map(dims, size) for dims in self.shares()]
        rng.shuffle(maps)
        if rng.random() < 0.4:
            maps.insert(rng.randrange(len(maps) + 1), self.metadata())
        self.root = Node("CIFTI", [("Version", "2")], [Node("Matrix", (), maps)])

    def maps(self):
        return self.root.all("MatrixIndicesMap")

    def brains(self):
        return [m for m in self.maps() if m.children("BrainModel")]

    def shares(self):
        """The dimensions, parted among maps."""
        shares = []
        for dimension in range(len(self.lengths)):
            if shares and self.rng.random() < 0.25:
                self.rng.choice(shares).append(dimension)
            else:
                shares.append([dimension])
        return shares

    def one_map(self, dimensions, size):
        kind = self.rng.choice(["BRAIN_MODELS"] * 3 + ["SERIES", "SCALARS", "SCALARS"] + ["LABELS"] * self.may_label(dimensions))
        self.rng.shuffle(dimensions)
        one = Node("MatrixIndicesMap", [("AppliesToMatrixDimension", ",".join(map(str, dimensions))),
                                        ("IndicesMapToDataType", "CIFTI_INDEX_TYPE_" + kind)])
        length = {"BRAIN_MODELS": self.brain, "SERIES": self.series, "SCALARS": self.scalars, "LABELS": self.labels}[kind](one, size)
        for dimension in dimensions:
            self.lengths[dimension] = length
        return one

    # ------------------------------------------------------------ the kinds

    def scalars(self, one, size):
        count = self.rng.randint(1, min(size, 12))
        for _ in range(count):
            named = [Node("MapName", (), [self.phrase()])]
            if self.rng.random() < 0.3:
                named.append(self.metadata())
            self.rng.shuffle(named)
            one.contents.append(Node("NamedMap", (), named))
        return count

    def may_label(self, dimensions):
        """Labels stand on one dimension; how often they are to be chosen."""
        return 0 if self.labelled or len(dimensions) > 1 else 2

    def labels(self, one, size):
        self.labelled = True
        count = self.rng.randint(1, min(size, 4))
        for _ in range(count):
            keys = self.rng.sample(range(-40, 40), self.rng.choice([0, 1, 2, 9])) + self.rng.sample([-2 ** 31, 2 ** 31 - 1], 1)
            named = [Node("MapName", (), [self.phrase()]), self.table(keys)]
            if self.rng.random() < 0.3:
                named.append(self.metadata())
            self.rng.shuffle(named)
            one.contents.append(Node("NamedMap", (), named))
        return count

    def table(self, keys):
        """A table of labels of these keys, in any order."""
        self.rng.shuffle(keys)
        colours = ["0", "1", "0.5", "+1.0", "-0", "1e-3", "0.25"]
        return Node("LabelTable", (), [Node("Label", [("Key", str(key))] + [(c, self.rng.choice(colours))
                                       for c in ("Red", "Green", "Blue", "Alpha")], [self.phrase()]) for key in keys])

    def series(self, one, size):
        points = self.rng.choice([1, 2, self.rng.randint(1, size), self.rng.randint(1, 1048576), 1048576])
        one.attributes += [["NumberOfSeriesPoints", self.whole(points)], ["SeriesStart", self.decimal()],
                           ["SeriesStep", self.decimal()], ["SeriesExponent", self.exponent()],
                           ["SeriesUnit", self.rng.choice(UNITS)]]
        return points

    def brain(self, one, size):
        rng = self.rng
        total = rng.randint(1, size)
        models = min(total, rng.choice([1, 2, 2, 3, 4, 6, rng.randint(1, 64)]))
        cuts = sorted(rng.sample(range(1, total), models - 1))
        pairs = rng.sample([(kind, name) for kind in "SV" for name in STRUCTURES], models)
        axes = [rng.choice([1, 2, 8, rng.randint(1, 2048), rng.randint(1, 65536), 65536]) for _ in range(3)]
        while axes[0] * axes[1] * axes[2] < 2 * total:
            axes = [min(65536, 2 * axis) for axis in axes]
        voxels = iter(rng.sample(range(axes[0] * axes[1] * axes[2]), total))
        children = []
        for begin, end, (kind, name) in zip([0] + cuts, cuts + [total], pairs):
            children.append(self.model(begin, end - begin, kind, name, axes, voxels))
        if any(kind == "V" for kind, _ in pairs) or rng.random() < 0.2:
            children.append(self.volume(axes))
        rng.shuffle(children)
        one.contents += children
        self.records += total
        self.longest = max(self.longest, total)
        return total

    def model(self, begin, count, kind, name, axes, voxels):
        rng = self.rng
        word = "SURFACE" if kind == "S" else "VOXELS"
        model = Node("BrainModel", [("IndexOffset", self.whole(begin)), ("IndexCount", self.whole(count)),
                                    ("ModelType", "CIFTI_MODEL_TYPE_" + word),
                                    ("BrainStructure", "CIFTI_STRUCTURE_" + name)])
        if kind == "S":
            surface = rng.choice([count, count + 1, 2 * count + 3, 32492 + count, 1048576])
            surface = min(surface, 1048576)
            numbers = rng.sample(range(surface), count)
            if surface - 1 not in numbers:
                numbers[rng.randrange(count)] = surface - 1
            if rng.random() < 0.5:
                numbers.sort()
            model.put("SurfaceNumberOfVertices", self.whole(surface))
            listed = Node("VertexIndices", words=[self.whole(n) for n in numbers])
        else:
            words = []
            for _ in range(count):
                at = next(voxels)
                words += [at % axes[0], at // axes[0] % axes[1], at // (axes[0] * axes[1])]
            listed = Node("VoxelIndicesIJK", words=[self.whole(n) for n in words])
        model.contents = [listed]
        return model

    def volume(self, axes):
        rows = [self.decimal() for _ in range(12)]
        last = [self.rng.choice(["0", "0", "0.0", "-0", "+0.00", "000", "0E-45", "-0.0E46", "0e45"]) for _ in range(3)]
        one = self.rng.choice(["1", "1", "1.0", "+1", "001.000", "10E-1", "0.1E1", "100000000000000E-14", "0.00000000000001e+14"])
        matrix = Node(TRANSFORMATION, [("MeterExponent", self.exponent())], words=rows + last + [one])
        return Node("Volume", [("VolumeDimensions", ",".join(map(self.whole, axes)))], [matrix])

    def metadata(self):
        entries = []
        for _ in range(self.rng.choice([0, 1, 1, 2, 5])):
            pair = [Node("Name", (), [self.phrase()]), Node("Value", (), [self.phrase()])]
            self.rng.shuffle(pair)
            entries.append(Node("MD", (), pair))
        return Node("MetaData", (), entries)

    # -------------------------------------------------------------- numbers

    def phrase(self):
        return "".join(self.rng.choice(PHRASES) for _ in range(self.rng.choice([0, 1, 1, 1, 2, 3])))

    def whole(self, number):
        """The number with leading zeros now and then, seven digits at most."""
        if self.rng.random() < 0.97:
            return str(number)
        return str(number).zfill(self.rng.randint(1, 7))

    def exponent(self):
        return self.rng.choice(["0", "-3", "-0", "30", "-30", "03", "-09", str(self.rng.randint(-30, 30))])

    def decimal(self):
        rng = self.rng
        digits = "".join(rng.choice("0123456789") for _ in range(rng.choice([1, 1, 2, 3, 8, 15])))
        if len(digits) > 1 and rng.random() < 0.6:
            point = rng.randrange(1, len(digits))
            digits = digits[:point] + "." + digits[point:]
        if rng.random() < 0.25:
            digits += self.power(len(digits.partition(".")[2]))
        return rng.choice(["", "", "", "-", "+"]) + digits

    def power(self, places):
        """A written power behind so many places; less them it is from -45 to 45."""
        n = self.rng.choice([places - 45, places + 45, self.rng.randint(-9, 9), self.rng.randint(places - 45, places + 45)])
        sign = "-" if n < 0 else self.rng.choice(["", "+", "-" if n == 0 else ""])
        return self.rng.choice("eE") + sign + (str(abs(n)) if self.rng.random() < 0.8 else str(abs(n)).zfill(2))


class Style:
    """How a document is written: `freedom` is how often something unusual is done."""

    def __init__(self, rng, freedom):
        self.rng = rng
        self.freedom = freedom
        self.out = []

    def often(self, share=1.0):
        return self.rng.random() < self.freedom * share

    def blanks(self, least=0):
        if self.often():
            return "".join(self.rng.choice(MANY_BLANKS) for _ in range(self.rng.randint(max(1, least), 3)))
        return " " * least

    def comment(self):
        inside = "".join(self.rng.choice(COMMENTS) for _ in range(self.rng.randint(0, 2)))
        while "--" in inside:
            inside = inside.replace("--", "-")
        return "<!--" + inside.rstrip("-") + "-->"

    def aside(self, inside=False):
        """Blanks and comments, and inside an element CDATA of blanks."""
        while self.often():
            self.out.append(self.rng.choice([self.blanks(1), self.comment()] + [data(self.blanks())] * inside))

    def equals(self):
        return self.blanks() + "=" + self.blanks()

    def quoted(self, value):
        quote = "'" if self.often() else '"'
        letters = []
        for letter in value:
            if letter in "&<" or letter == quote or (letter in ">\"'" and self.often()):
                letter = REFERENCES[letter]
            elif letter == " " and self.often():
                letter = self.rng.choice(["\t", "\n", "\r", "\r\n"])
            letters.append(letter)
        return quote + "".join(letters) + quote

    def text(self, value):
        """Characters as text; comments may stand between any two of them, and any of them in CDATA."""
        if not value.strip("0123456789 \n") and not self.often(3):
            self.out.append(value)
            return
        comments, marked, at = self.often(), self.often(), 0
        while at < len(value):
            if comments and self.rng.random() < 0.05:
                self.out.append(self.comment())
            if marked and self.rng.random() < 0.1:
                end = at + self.rng.choice([0, 1, 1, 2, 5, 40, len(value)])
                self.out.append(data(value[at:end]))
                at = end
            else:
                self.out.append(self.letter(value, at))
                at += 1
        if comments and self.rng.random() < 0.3:
            self.out.append(self.comment())

    def letter(self, value, at):
        """A character of a text, as itself or by a reference."""
        letter = value[at]
        if letter in "&<" or (letter in ">\"'" and self.often()):
            return REFERENCES[letter]
        if letter == ">" and value[max(0, at - 2):at] == "]]":
            return self.rng.choice(["&gt;", "<!---->>", self.comment() + ">", "<![CDATA[>]]>"])
        return letter

    def listed(self, words):
        if not self.often(2):
            return " ".join(words)
        gaps = [self.rng.choice(MANY_BLANKS) for _ in words]
        return self.blanks() + "".join(w + g for w, g in zip(words, gaps)) + self.blanks()

    def element(self, node):
        attributes = list(node.attributes)
        if self.often():
            self.rng.shuffle(attributes)
        self.out.append("<" + node.name)
        for name, value in attributes:
            self.out.append(self.blanks(1) + name + self.equals() + self.quoted(value))
        self.out.append(self.blanks())
        contents = node.contents if node.words is None else node.contents + [self.listed(node.words)]
        if not any(contents) and self.rng.random() < 0.5:
            self.out.append("/>")
            return
        self.out.append(">")
        spaced = not any(isinstance(c, str) for c in contents) and node.name not in ("Name", "Value", "MapName")
        for one in contents:
            if spaced:
                self.aside(inside=True)
            if isinstance(one, str):
                self.text(one)
            else:
                self.element(one)
        if spaced:
            self.aside(inside=True)
        self.out.append("</" + node.name + self.blanks() + ">")

    def declaration(self):
        if self.rng.random() < 0.4:
            version, encoding = self.quoted("1.0"), self.quoted("UTF-8")
            self.out.append("<?xml" + self.blanks(1) + "version" + self.equals() + version)
            if self.rng.random() < 0.7:
                self.out.append(self.blanks(1) + "encoding" + self.equals() + encoding)
            self.out.append(self.blanks() + "?>")

    def write(self, root):
        self.out = []
        self.declaration()
        self.aside()
        if self.often():
            self.out.append(self.rng.choice(DOCTYPES))
            self.aside()
        self.element(root)
        self.aside()
        return "".join(self.out).encode("utf-8", "surrogatepass")


REFERENCES = {"&": "&amp;", "<": "&lt;", ">": "&gt;", '"': "&quot;", "'": "&apos;"}
