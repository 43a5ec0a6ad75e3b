"""Where a rule is broken: places and words, and that the independent reading and the library give one number."""
import json
import random
import unittest
from unittest import mock

import dzwonolin
import dzwonolin_asked
import dzwonolin_oracle_front
import dzwonolin_why
import stations
import texts
from dzwonolin_oracle_markup import Refused
from users_asked import InFolder, asked

T = stations.TEXT
MAP, MODEL = "CIFTI/Matrix/MatrixIndicesMap[{}]", "CIFTI/Matrix/MatrixIndicesMap[2]/BrainModel[{}]"
VOLUME = MAP.format(2) + "/Volume"
TRANSFORMATION = VOLUME + "/TransformationMatrixVoxelIndicesIJKtoXYZ"
LABEL = b'<Label Key="5" Red="0" Green="0.5" Blue="1" Alpha="1">five</Label>'
TABLE = MAP.format(1) + "/NamedMap[1]/LabelTable"


def labelled(labels):
    """The station's text with labels in place of scalars, each map with a table of these Labels."""
    table = b"</MapName><LabelTable>" + labels + b"</LabelTable>"
    return T.replace(b"TYPE_SCALARS", b"TYPE_LABELS").replace(b"</MapName>", table)


# (number, the station's text with something made something else, line, column, path, what the words hold)
ROWS = [
    (3, T.replace(b"</Volume>", b""), 28, 5, None, "Volume is open"),
    (3, T[:T.index(b"<Volume ")], 9, 7, None, "MatrixIndicesMap is open"),
    (3, T.replace(b"thickness", b"thick&#65;ness"), 5, 31, None, "number reference"),
    (3, T.replace(b"thickness", b"a & b"), 5, 28, None, "&amp;"),
    (3, b"\xef\xbb\xbf" + T, 1, 1, None, "byte-order mark"),
    (3, T.decode().encode("utf-16"), 1, 1, None, "UTF-16"),
    (3, b"\x1f\x8b" + T, 1, 2, None, "compressed, by gzip"),
    (3, T.replace(b'Version="2"', b"Version=2"), 2, 1, None, "the tag is good up to '<CIFTI'"),
    (3, T.replace(b"<CIFTI", b"<![CDATA[]]><CIFTI"), 2, 1, None, "CDATA, which may stand inside an element alone"),
    (3, T.replace(b"thickness", b"<![CDATA[x]]"), 5, 26, None, "CDATA that does not end"),
    (3, T.replace(b"<CIFTI", b"<!DOCTYPE x [ ]><CIFTI"), 2, 1, None, "DOCTYPE"),
    (3, T.replace(b"<CIFTI", b"<!DOCTYPE x><!DOCTYPE x><CIFTI"), 2, 13, None, "DOCTYPE"),
    (3, T.replace(b'encoding="UTF-8"', b'encoding="ISO-8859-1"'), 1, 1, None, "encoding UTF-8"),
    (3, T.replace(b"thickness", "dick\u00e9\xe9".encode() + b"\xff"), 5, 32, None, "not UTF-8"),
    (3, T + b"<x/>", 31, 1, None, "after the root"),
    (3, b"", 1, 1, None, "empty"),
    (3, b"2,9\n" + T, 1, 1, None, "does not begin with <"),
    (4, T.replace(b'Version="2"', b'Version="1"'), 2, 8, "CIFTI", "Version is '1'"),
    (4, b"<GIFTI/>", 1, 1, "GIFTI", "the root is GIFTI"),
    (5, T.replace(b"TYPE_SCALARS", b"TYPE_PARCELS"), 4, 52, MAP.format(1), "PARCELS"),
    (6, T.replace(b"CORTEX_RIGHT", b"CORTEX_RIGTH"), 19, 19, MODEL.format(2), "nearest is CIFTI_STRUCTURE_CORTEX_RIGHT"),
    (6, T.replace(b"<MapName>thickness</MapName>", b""), 5, 7, MAP.format(1) + "/NamedMap[1]", "0 MapName, and must hold 1"),
    (6, T.replace(b' IndexCount="4"', b""), 14, 7, MODEL.format(1), "no IndexCount"),
    (6, T.replace(b'"8,8,8"', b'"8,8,8" x="1"'), 9, 40, VOLUME, "x, which may not stand here"),
    (6, T.replace(b"<Volume ", b"oops<Volume "), 8, 5, MAP.format(2), "'oops'"),
    (6, T.replace(b"<Volume ", b"<![CDATA[oops]]><Volume "), 8, 5, MAP.format(2), "'oops'"),
    (6, T.replace(b"<Matrix>", b"<Matrix><Extra/>"), 3, 11, "CIFTI/Matrix/Extra", "may not stand here"),
    (7, T.replace(b"5 11<", b"5 11x<"), 16, 30, MODEL.format(1) + "/VertexIndices", "'11x'"),
    (7, T.replace(b'"8,8,8"', b'"8, 8,8"'), 9, 15, VOLUME, "without blanks"),
    (7, T.replace(b"0 0 0 1\n", b"0 0 0 2\n"), 10, 9, TRANSFORMATION, "last row"),
    (7, T.replace(b"0 0 0 1\n", b"0 0 0\n"), 10, 9, TRANSFORMATION, "lists 15 numbers"),
    (7, T.replace(b'IndexCount="4"', b'IndexCount="0"'), 14, 35, MODEL.format(1), "from 1 to 1048576"),
    (7, T.replace(b"-72 ", b"-7x "), 11, 40, TRANSFORMATION, "'-7x'"),
    (7, T.replace(b"2 3 6", b"2 3 70000"), 25, 15, MODEL.format(3) + "/VoxelIndicesIJK", "from 0 to 65535"),
    (8, T.replace(b'Dimension="0"', b'Dimension="0,5"'), 4, 23, MAP.format(1), "only 2 dimensions"),
    (9, T.replace(b"<NamedMap><MapName>curvature</MapName></NamedMap>", b""), 4, 5, MAP.format(1), "length 1, and dimension 0"),
    (10, T.replace(b"CORTEX_RIGHT", b"CORTEX_LEFT"), 19, 19, MODEL.format(2), "BrainModel[1] already"),
    (11, T.replace(b'Offset="4"', b'Offset="3"'), 8, 5, MAP.format(2), "index 6 of the map is in no"),
    (11, T.replace(b"0 1 5 11", b"0 1 5"), 14, 7, MODEL.format(1), "asks for 4 numbers, and it lists 3"),
    (12, T.replace(b"5 11<", b"5 12<"), 16, 30, MODEL.format(1) + "/VertexIndices", "vertex 12 is not below 12"),
    (12, T.replace(b"2 3 6", b"2 8 6"), 25, 13, MODEL.format(3) + "/VoxelIndicesIJK", "on axis 1"),
    (14, T.replace(b"5 11<", b"5 1<"), 16, 30, MODEL.format(1) + "/VertexIndices", "index 1 already, and again at index 3"),
    (14, T.replace(b"2 3 6", b"2 3 5"), 25, 11, MODEL.format(3) + "/VoxelIndicesIJK", "voxel 2 3 5"),
    (24, labelled(LABEL + LABEL.replace(b'"5"', b'"05"')), 5, 130, TABLE + "/Label[2]", "key 5 stands at"),
    (7, labelled(LABEL.replace(b'Red="0"', b'Red="2"')), 5, 72, TABLE + "/Label", "from 0 to 1"),
    (7, labelled(LABEL.replace(b'"5"', b'"5.0"')), 5, 64, TABLE + "/Label", "of 1 to 10 digits"),
    (6, labelled(LABEL.replace(b' Alpha="1"', b"")), 5, 57, TABLE + "/Label", "no Alpha"),
]


class Places(unittest.TestCase):
    def test_each(self):
        for number, text, line, column, path, words in ROWS:
            with self.subTest(number=number, words=words):
                self.assertEqual(dzwonolin.read(text, [2, 9]).number, number)
                reading, spots = dzwonolin_why.explained(text, [2, 9])
                self.assertEqual(reading, number)
                self.assertEqual((*dzwonolin_why.line_and_column(text, spots[0].place), spots[0].path), (line, column, path))
                self.assertIn(words, spots[0].words)

    def test_without_a_place(self):
        for lengths, text, number, words in (([2], T, 1, "the lengths are 2"), ([2, 9], bytes(16777217), 2, "16777217 bytes"),
                                             ([2, 9, 4], T, 8, "no map lists dimension 2, of length 4")):
            reading, spots = dzwonolin_why.explained(text, lengths)
            self.assertEqual((reading, dzwonolin.read(text, lengths).number, spots[0].place), (number, number, None))
            self.assertIn(words, spots[0].words)

    def test_labels_on_two_dimensions(self):
        text, lengths = labelled(LABEL).replace(b'Dimension="0"', b'Dimension="0,2"'), [2, 9, 2]
        reading, spots = dzwonolin_why.explained(text, lengths)
        self.assertEqual((reading, dzwonolin.read(text, lengths).number, spots[0].path), (25, 25, MAP.format(1)))
        self.assertIn("labels on dimension 0, 2", spots[0].words)

    def test_texts_from_a_seed_are_explained(self):
        """The library's number, and words at a place of the text, for whatever is wrong."""
        for number in range(300):
            one = texts.case(7, number)
            reading, spots = dzwonolin_why.explained(one.text, one.lengths)
            self.assertEqual(reading, dzwonolin.read(one.text, one.lengths, 4096, 4096).number)
            self.assertEqual(bool(spots), bool(reading), number)
            for spot in spots:
                self.assertTrue(spot.words and (spot.place is None or 0 <= spot.place <= len(one.text)))
                dzwonolin_why.line_and_column(one.text, spot.place or 0)


def damaged(rng):
    """A file's front with something wrong, as often as not."""
    data = bytearray(stations.nii(T, order=rng.choice("<>")))
    for _ in range(rng.randrange(3)):
        at = rng.choice([*range(12), *range(16, 80), *range(168, 176), 540, *range(544, 552), rng.randrange(len(data))])
        data[at] = rng.choice([0, 1, 2, 7, 16, 32, 255, rng.randrange(256)])
    return bytes(data[:rng.choice([len(data)] * 4 + [543, 544, 552, rng.randrange(len(data))])])


class Fronts(unittest.TestCase):
    def test_the_two_readings_of_fronts(self):
        rng, met = random.Random(3), set()
        for _ in range(1500):
            data = damaged(rng)
            told = dzwonolin.front(data)
            met.add(told.number)
            try:
                self.assertEqual((0, *dzwonolin_oracle_front.front(data)), told)
            except Refused as refused:
                self.assertEqual((refused.number, [], 0, 0), told)
                self.assertTrue(refused.why)
        self.assertEqual(met, {0, 20, 21, 22, 23})


class Asked(InFolder):
    def test_why_a_file(self):
        status, out, err = asked("why", "examples/misspelt.dscalar.nii")
        lines = out.splitlines()
        self.assertEqual((status, err, lines[0][:10], lines[-1]), (1, "", "refused 6:", dzwonolin_asked.NOT_PROVED))
        self.assertLess(max(map(len, lines)), 101)
        self.assertIn("line 19, column 19 of the header text: CIFTI/Matrix/MatrixIndicesMap[2]/BrainModel[2]: BrainStructure is ",
                      " ".join(out.split()))
        self.assertEqual(asked("why", "examples/station.dscalar.nii"), (0, "accepted: no rule is broken\n", ""))

    def test_why_a_text_and_a_front(self):
        self.write("a.xml", T.replace(b"5 11<", b"5 12<"))
        self.assertIn("line 16, column 30", asked("why", "a.xml", "--lengths", "2,9")[1])
        self.assertIn("byte 16 of the file: dim[0] is 5", asked("why", self.write("a.nii", self.front(16, b"\5")))[1])
        self.assertIn("only 700 bytes", asked("why", self.write("a.nii", stations.nii(T)[:700]))[1])
        self.assertIn("NIfTI-1", asked("why", self.write("a.nii", b"\x5c\1\0\0" + bytes(600)))[1])
        self.assertEqual(asked("why", "-", given=stations.nii(T))[0], 0)

    def front(self, at, new):
        data = stations.nii(T)
        return data[:at] + new + data[at + len(new):]

    def test_a_difference_is_said_first(self):
        with mock.patch.object(dzwonolin_why, "explained_file", return_value=(0, [], T)):
            status, out, _ = asked("why", "examples/misspelt.dscalar.nii")
            self.assertEqual((status, out.splitlines()[0][:23]), (1, "The two readings differ"))
        with mock.patch.object(dzwonolin_why, "explained_file", return_value=(7, [], T)):
            self.assertEqual(asked("why", "examples/station.dscalar.nii")[0], 1)

    def test_as_json_and_as_a_table(self):
        told = json.loads(asked("why", "--json", "examples/misspelt.dscalar.nii")[1])
        self.assertEqual((told["number"], told["independent_reading"], told["spots"][0]["line"], told["proved"]), (6, 6, 19, False))
        self.assertEqual(asked("why", "--tsv", "examples/misspelt.dscalar.nii")[1].splitlines()[1].split("\t")[:4], ["6", "6", "19", "19"])


