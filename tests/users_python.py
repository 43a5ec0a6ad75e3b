"""The Python module as a script uses it: open, its example, lent buffers, and wrong arguments told in the caller's words."""
import array
import ctypes
import doctest
import os
import pathlib
import re
import unittest

import dzwonolin
import paper
import stations
from users_asked import InFolder

ROOT = pathlib.Path(__file__).resolve().parent.parent
GOOD = "examples/station.dscalar.nii"
RECORDS = [17 << 48 | v for v in (0, 1, 5, 11)] + [18 << 48 | v for v in (3, 4, 10)] + [38 << 48 | 2 << 32 | 3 << 16 | k for k in (5, 6)]


class Opened(InFolder):
    def test_a_file(self):
        f = dzwonolin.open(GOOD)
        self.assertEqual((f.lengths, [d.kind for d in f.dimensions], f.records), ([2, 9], ["scalars", "brain"], array.array("Q", RECORDS)))
        self.assertEqual([f.location(n) for n in (0, 6, 7)], [("S", 17, 0), ("S", 18, 10), ("V", 6, 2, 3, 5)])
        self.assertEqual(f.counts()[1], (1, "S", "CORTEX_RIGHT", 3, 4))
        self.assertEqual((f.names(), f.names(0)), (["thickness", "curvature"],) * 2)
        self.assertEqual(dzwonolin.unpack(f.sheet()), (0, RECORDS))
        self.assertEqual(repr(f), f"<dzwonolin.File {GOOD}: scalars 2, brain 9>")

    def test_by_path_bytes_mapping_and_text(self):
        data = pathlib.Path(GOOD).read_bytes()
        for given in (pathlib.Path(GOOD), data, bytearray(data), memoryview(data)):
            self.assertEqual(dzwonolin.open(given).records, array.array("Q", RECORDS))
        self.write("a.xml", stations.TEXT)
        for given in ("a.xml", pathlib.Path("a.xml"), stations.TEXT, memoryview(stations.TEXT)):
            self.assertEqual(dzwonolin.open(given, [2, 9]).records, array.array("Q", RECORDS))

    def test_refused(self):
        with self.assertRaises(dzwonolin.Refused) as raised:
            dzwonolin.open("examples/misspelt.dscalar.nii")
        self.assertEqual((raised.exception.number, raised.exception.reason), (6, dzwonolin.reason(6)))
        self.assertEqual(str(raised.exception), f"examples/misspelt.dscalar.nii: refused 6: {dzwonolin.reason(6)}")
        self.assertRaises(FileNotFoundError, dzwonolin.open, "nosuch.nii")
        with self.assertRaises(dzwonolin.Refused) as raised:
            dzwonolin.open(self.write("empty.nii", b""))
        self.assertEqual(raised.exception.number, 20)

    def test_asked_wrongly(self):
        f = dzwonolin.open(GOOD)
        for call, words in ((lambda: f.location(9), "index 9 is not below 9"), (lambda: f.location(0, 0), "dimension 0 is no brain map"),
                            (lambda: f.names(1), "dimension 1 has no map names"),
                            (lambda: f.location(1.0), "an index must be a whole number"),
                            (lambda: f.location(-1), "an index must be a whole number of 64 bits")):
            with self.assertRaisesRegex((ValueError, TypeError, IndexError), words):
                call()

    def test_a_pipe_as_a_path(self):
        read, write = os.pipe()
        os.write(write, stations.FILES["station.dscalar.nii"])
        os.close(write)
        self.assertEqual(dzwonolin.open(f"/dev/fd/{read}").lengths, [2, 9])
        os.close(read)

    def test_a_large_file_is_not_read_whole(self):
        """A sparse file of 30 GB, with its front at its start, takes no more memory than a small one."""
        import resource
        with open("large.nii", "wb") as file:
            file.write(stations.FILES["station.dscalar.nii"])
            try:
                file.truncate(30 << 30)
            except OSError:
                self.skipTest("no sparse file of 30 GB here")
        before = resource.getrusage(resource.RUSAGE_SELF).ru_maxrss
        if not dzwonolin_is_served():
            self.assertEqual(dzwonolin.open("large.nii").lengths, [2, 9])
        with dzwonolin._Lent("large.nii") as lent:
            self.assertEqual((lent.length, lent.cut(4, 3)), (30 << 30, b"n+2"))
        self.assertLess(resource.getrusage(resource.RUSAGE_SELF).ru_maxrss - before, 8192)


def dzwonolin_is_served():
    return not isinstance(dzwonolin._library(), dzwonolin._Shared)


class Buffers(unittest.TestCase):
    def test_lent_and_not_copied(self):
        records, work = array.array("Q", [7] * 4), bytearray(24)
        answer = dzwonolin.read(paper.CASE_A, [2, 3], records, work)
        self.assertEqual((answer.number, list(records)), (0, [*paper.RECORDS_A, 7]))
        lent = dzwonolin._numbers(records)
        records[3] = 9
        self.assertEqual((lent[3], ctypes.addressof(lent)), (9, records.buffer_info()[0]))
        self.assertEqual(dzwonolin.pack(array.array("Q", paper.RECORDS_A)), (0, paper.SHEET_A))
        kept = array.array("Q", paper.RECORDS_A)
        self.assertEqual(dzwonolin.pack(memoryview(kept).toreadonly()), (0, paper.SHEET_A))
        self.assertEqual(ctypes.addressof(dzwonolin._numbers(memoryview(kept).toreadonly())), kept.buffer_info()[0])
        for text in (bytearray(paper.CASE_A), memoryview(paper.CASE_A)):
            self.assertEqual(dzwonolin.read(text, [2, 3]).records, paper.RECORDS_A)
            self.assertEqual(dzwonolin.map_name(text, [2, 3], 0, 1), (0, b"b"))
        self.assertEqual(dzwonolin.unpack(memoryview(paper.SHEET_A)), (0, paper.RECORDS_A))

    def test_lengths_of_any_kind_of_whole_numbers(self):
        for lengths in ((2, 3), iter([2, 3]), (n for n in (2, 3)), array.array("Q", [2, 3]), range(2, 4)):
            self.assertEqual(dzwonolin.read(paper.CASE_A, lengths).number, 0)

    def test_told_in_the_caller_s_words(self):
        read, a = dzwonolin.read, paper.CASE_A
        for call, words in (
                (lambda: read(a, [2.0, 3.0]), "a length must be a whole number, and 2.0 is not"),
                (lambda: read(a, "2,3"), r"numbers are asked for, as \[2, 91282\], and not the text '2,3'"),
                (lambda: read(a, [2, -3]), "a length must be a whole number of 64 bits, and -3 is not"),
                (lambda: read(a, ["2", "3"]), "a length must be a whole number, and '2' is not"),
                (lambda: read(a.decode(), [2, 3]), "the text of a header is bytes and not str"),
                (lambda: read(5, [2, 3]), "bytes are asked for, and not int"),
                (lambda: read(a, [2, 3], array.array("d", [0] * 3)), "64-bit numbers without a sign is asked for.*'d'"),
                (lambda: read(a, [2, 3], array.array("q", [0] * 3)), "64-bit numbers without a sign is asked for.*'q'"),
                (lambda: read(a, [2, 3], [0, 0, 0]), "room is a size or a buffer of 64-bit numbers.*not list"),
                (lambda: read(a, [2, 3], bytes(24)), "may only be read"),
                (lambda: read(array.array("Q", [1]), [2, 3]), "bytes are asked for, and not a buffer of format 'Q'"),
                (lambda: dzwonolin.pack(array.array("d", [1.0])), "64-bit numbers without a sign"),
                (lambda: dzwonolin.find([1], "x"), "a number must be a whole number, and 'x' is not"),
                (lambda: dzwonolin.map_name(a, [2, 3], 0, 1.5), "an index must be a whole number, and 1.5 is not"),
                (lambda: dzwonolin.open(a, [2.5, 3]), "a length must be a whole number")):
            with self.assertRaisesRegex((TypeError, ValueError), words):
                call()


class Module(unittest.TestCase):
    def test_the_example_of_help_is_run(self):
        home = os.getcwd()
        self.addCleanup(os.chdir, home)
        os.chdir(ROOT)
        found = doctest.testmod(dzwonolin)
        self.assertEqual((found.failed, found.attempted > 5), (0, True))

    def test_every_public_function_has_words_and_types(self):
        for name in dzwonolin.__all__:
            one = getattr(dzwonolin, name)
            self.assertTrue(one.__doc__, name)
        for name in "read read_file front map_name file_map_name find pack unpack unfold open reason has".split():
            self.assertIn("return", getattr(dzwonolin, name).__annotations__, name)

    def test_the_version_is_the_header_s(self):
        told = re.search(r'#define DZ_VERSION "(.*)"', (ROOT / "include" / "dzwonolin.h").read_text())
        if not told:
            self.skipTest("the header has no DZ_VERSION yet")
        self.assertEqual(dzwonolin.__version__, told[1])

    def test_a_function_that_the_library_lacks(self):
        self.assertFalse(dzwonolin.has("dz_nosuch"))
        self.assertTrue(dzwonolin.has("dz_read"))
