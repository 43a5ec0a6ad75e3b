"""GIFTI label files: the command `labels` and `dzwonolin.gifti_keys`, by path, bytes and buffer."""
import array
import base64
import json
import mmap
import pathlib
import struct

import dzwonolin
import dzwonolin_why
import dzwonolin_why_labels
import gifti_texts
import stations
from users_asked import InFolder, asked

GOOD, LABELS = "examples/station.label.gii", stations.LABELS
KEYS = array.array("i", [0, 0, 1, 1, 5, 5, 5, 1, 0, 0, 5, 5])
SHOWN = "0  4\n1  3\n5  5\n"


def changed(old, new):
    assert LABELS.count(old) == 1
    return LABELS.replace(old, new)


def coded(order, endian):
    """The example with its keys in Base64."""
    text = changed(b"0 0 1 1 5 5 5 1 0 0 5 5", base64.b64encode(struct.pack(f"{order}12i", *KEYS)))
    return text.replace(b'"ASCII"', b'"Base64Binary"').replace(b'"LittleEndian"', endian)


def two_arrays():
    """The example with a second array, of another key."""
    at, end = LABELS.index(b"  <DataArray"), LABELS.index(b"</GIFTI>")
    more = LABELS[at:end].replace(b"0 0 1 1 5 5 5 1 0 0 5 5", b"-1 -1 5").replace(b'"12"', b'"3"')
    table = changed(b'Key="1"', b'Key="-1"').replace(b"0 0 1 1 5 5 5 1 0 0 5 5", b"0 0 -1 -1 5 5 5 -1 0 0 5 5")
    return table.replace(b'Arrays="1"', b'Arrays="2"').replace(b"</GIFTI>", more + b"</GIFTI>")


class Keys(InFolder):
    def test_by_path_bytes_and_buffer(self):
        with open(GOOD, "rb") as file, mmap.mmap(file.fileno(), 0, access=mmap.ACCESS_READ) as mapped:
            for given in (GOOD, pathlib.Path(GOOD), LABELS, bytearray(LABELS), memoryview(LABELS), mapped):
                self.assertEqual(dzwonolin.gifti_keys(given, 0), (0, KEYS))
        self.assertEqual(dzwonolin.gifti_keys(LABELS, 0)[1].typecode, "i")

    def test_base64_in_either_order(self):
        for text in (coded("<", b'"LittleEndian"'), coded(">", b'"BigEndian"')):
            self.assertEqual(dzwonolin.gifti_keys(text, 0), (0, KEYS))
        self.assertEqual(dzwonolin.gifti_keys(coded("<", b'"BigEndian"'), 0)[0], 31)

    def test_refused(self):
        none = array.array("i")
        for number, given in ((3, b""), (4, stations.TEXT), (29, changed(b"NIFTI_INTENT_LABEL", b"NIFTI_INTENT_SHAPE"))):
            self.assertEqual(dzwonolin.gifti_keys(given, 0), (number, none))
        self.assertEqual([dzwonolin.gifti_keys(LABELS, n)[0] for n in (1, 2 ** 64 - 1)], [18, 18])
        self.assertEqual(dzwonolin.gifti_keys(self.write("empty.label.gii", b""), 0), (3, none))

    def test_asked_wrongly(self):
        for call, wrong, words in ((lambda: dzwonolin.gifti_keys(LABELS, -1), ValueError, "an array must be a whole number of 64 bits"),
                                   (lambda: dzwonolin.gifti_keys(LABELS, "0"), TypeError, "an array must be a whole number"),
                                   (lambda: dzwonolin.gifti_keys([1, 2], 0), TypeError, "bytes are asked for"),
                                   (lambda: dzwonolin.gifti_keys("nosuch.label.gii", 0), FileNotFoundError, "nosuch")):
            with self.assertRaisesRegex(wrong, words):
                call()


class Command(InFolder):
    def test_key_and_count(self):
        self.assertEqual(asked("labels", GOOD), (0, SHOWN, ""))
        self.assertEqual(asked("labels", GOOD, "0"), (0, SHOWN, ""))
        self.assertEqual(asked("labels", "-", given=LABELS), (0, SHOWN, ""))

    def test_two_arrays(self):
        self.write("two.label.gii", two_arrays())
        self.assertEqual(asked("labels", "two.label.gii"), (0, "array 0\n-1  3\n 0  4\n 5  5\narray 1\n-1  2\n 5  1\n", ""))
        self.assertEqual(asked("labels", "two.label.gii", "1"), (0, "-1  2\n 5  1\n", ""))
        told = json.loads(asked("labels", "--json", "two.label.gii")[1])
        self.assertEqual((told["number"], [one["length"] for one in told["arrays"]]), (0, [12, 3]))
        self.assertEqual(told["arrays"][1]["keys"], [{"key": -1, "count": 2}, {"key": 5, "count": 1}])

    def test_as_a_table(self):
        self.assertEqual(asked("labels", "--tsv", GOOD)[1].splitlines(), ["file\tarray\tkey\tcount", f"{GOOD}\t0\t0\t4", f"{GOOD}\t0\t1\t3",
                                                                         f"{GOOD}\t0\t5\t5"])

    def test_refused(self):
        for words, number in ((["1"], 18), (["-1"], 18), ([str(2 ** 70)], 18)):
            status, out, err = asked("labels", GOOD, *words)
            self.assertEqual((status, out, err.count("\n")), (1, "", 1))
            self.assertIn(f"{GOOD}: refused {number}: ", err)
        self.write("bad.label.gii", changed(b'Key="5"', b'Key="6"'))
        self.assertIn("refused 31", asked("labels", "bad.label.gii")[2])
        status, out, _ = asked("labels", "--json", "bad.label.gii")
        self.assertEqual((status, json.loads(out)), (1, {"file": "bad.label.gii", "number": 31, "reason": dzwonolin.reason(31)}))

    def test_could_not_ask_and_wrong_use(self):
        self.assertEqual(asked("labels", "nosuch.label.gii"), (3, "", "dzwonolin: nosuch.label.gii: No such file or directory\n"))
        for words in (["labels"], ["labels", GOOD, "first"], ["labels", GOOD, "--lengths", "2,9"], ["labels", GOOD, "--json", "--tsv"]):
            self.assertEqual(asked(*words)[:2], (2, ""))

    def test_what_a_file_looks_like(self):
        self.assertIn("NIfTI-2 file and no GIFTI", asked("labels", "examples/station.dscalar.nii")[2])
        self.assertIn("compressed, by gzip", asked("labels", self.write("a.label.gii", b"\x1f\x8b" + bytes(600)))[2])
        self.assertIn("dzwonolin labels", asked("counts", GOOD)[2])


# (number, the example with something made something else, line, column, path, what the words hold)
ARRAY = "GIFTI/DataArray"
ROWS = [
    (3, changed(b"<Data>", b"<Data>&"), 15, 11, None, "&amp;"),
    (3, changed(b"<!DOCTYPE GIFTI", b"<!DOCTYPE GIFTI []"), 2, 1, None, "DOCTYPE"),
    (4, changed(b'GIFTI Version="1.0"', b'GIFTI Version="1"'), 3, 8, "GIFTI", "must be '1.0'"),
    (6, changed(b'Arrays="1"', b'Arrays="1" xmlns:xsi="a"'), 3, 45, "GIFTI", "xmlns:xsi, which may not stand here"),
    (6, changed(b"    <MetaData/>", b"    <MetaData/><CoordinateSystemTransformMatrix/>"), 14, 16,
     ARRAY + "/CoordinateSystemTransformMatrix", "may not stand here"),
    (6, changed(b'"RowMajorOrder"', b'"RowMajor"'), 12, 70, ARRAY, "no order of indexing"),
    (6, changed(b'"LittleEndian"', b'"Little"'), 13, 60, ARRAY, "no order of bytes"),
    (6, coded("<", b'"x"').replace(b' Endian="x"', b""), 12, 3, ARRAY, "Base64Binary needs"),
    (6, changed(b"</GIFTI>", b"<MetaData/></GIFTI>").replace(b"  <MetaData>", b"  <!--").replace(b"  </MetaData>", b"-->", 1), 17, 1,
     "GIFTI/MetaData", "stands behind DataArray"),
    (29, changed(b'"ASCII"', b'"GZipBase64Binary"'), 13, 43, ARRAY, "only ASCII and Base64Binary is read"),
    (29, changed(b"INT32", b"FLOAT32"), 12, 42, ARRAY, "only NIFTI_TYPE_INT32"),
    (7, changed(b"1 0 0 5 5", b"1 0 x 5 5"), 15, 29, ARRAY + "/Data", "'x'"),
    (7, coded("<", b'"LittleEndian"').replace(b"AA</Data>", b"A</Data>"), 15, 5, ARRAY + "/Data", "Base64"),
    (7, changed(b'Dim0="12"', b'Dim0="0"'), 13, 33, ARRAY, "from 1 to 1048576"),
    (9, changed(b'Arrays="1"', b'Arrays="3"'), 3, 22, "GIFTI", "is 3, and there are 1"),
    (24, changed(b'Key="5"', b'Key="01"'), 10, 12, "GIFTI/LabelTable/Label[3]", "key 1 stands at GIFTI/LabelTable/Label[2] already"),
    (30, changed(b'Dim0="12"', b'Dim0="13"'), 13, 33, ARRAY, "Dim0 is 13, and it lists 12 numbers"),
    (30, coded("<", b'"LittleEndian"').replace(b'"12"', b'"11"'), 13, 33, ARRAY, "it holds 48 bytes"),
    (31, changed(b'Key="5"', b'Key="6"'), 15, 19, ARRAY + "/Data", "no Label has key 5, which stands at place 4, and 5 times in all"),
]


class Why(InFolder):
    def test_each(self):
        for number, text, line, column, path, words in ROWS:
            with self.subTest(number=number, words=words):
                self.assertEqual(dzwonolin.gifti_keys(text, 0)[0], number)
                reading, spots = dzwonolin_why_labels.explained(text)
                self.assertEqual(reading, number)
                self.assertIn(words, spots[0].words)
                self.assertEqual((*dzwonolin_why.line_and_column(text, spots[0].place), spots[0].path), (line, column, path))

    def test_files_from_a_seed_are_explained(self):
        for number in range(200):
            text = gifti_texts.case(7, number).text
            reading, spots = dzwonolin_why_labels.explained(text)
            self.assertEqual((reading, bool(spots)), (dzwonolin.gifti_keys(text, 0)[0], bool(reading)))
            self.assertTrue(all(spot.words for spot in spots))

    def test_the_command(self):
        self.assertEqual(asked("why", GOOD), (0, "accepted: no rule is broken\n", ""))
        status, out, _ = asked("why", self.write("bad.label.gii", changed(b'Key="5"', b'Key="6"')))
        self.assertEqual((status, out.splitlines()[0]), (1, f"refused 31: {dzwonolin.reason(31)}"))
        self.assertIn("line 15, column 19 of the text: GIFTI/DataArray/Data: no Label has key 5", " ".join(out.split()))
