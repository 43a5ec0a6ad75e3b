"""Words for every number: those of include/dzwonolin.h, in dz_reason, docs/REFUSALS.md and the Python module; and each example is run."""
import importlib.machinery
import importlib.util
import pathlib
import subprocess
import tempfile
import unittest

import dzwonolin
import dzwonolin_reasons
import served
import paper
import stations
from users_asked import asked

ROOT = pathlib.Path(__file__).resolve().parent.parent


def tool():
    loader = importlib.machinery.SourceFileLoader("reasons", str(ROOT / "tools" / "reasons"))
    module = importlib.util.module_from_spec(importlib.util.spec_from_loader("reasons", loader))
    loader.exec_module(module)
    return module


LABEL = b'<Label Key="5" Red="0" Green="0.5" Blue="1" Alpha="1">five</Label>'


def labelled(labels):
    """Case A with labels in place of scalars, each map with a table of these Labels."""
    table = b"</MapName><LabelTable>" + labels + b"</LabelTable>"
    return paper.CASE_A.replace(b"TYPE_SCALARS", b"TYPE_LABELS").replace(b"</MapName>", table)


class Words(unittest.TestCase):
    def test_they_are_the_header_s_everywhere(self):
        words = tool().reasons()
        self.assertGreater(len(words), 20)
        self.assertEqual(dzwonolin_reasons.REASONS, words)
        self.assertEqual({n: one[0] for n, one in tool().sections().items()}, words)
        self.assertEqual(tool().header(words), tool().HEADER.read_text())
        self.assertEqual(tool().module(words), tool().MODULE.read_text())

    def test_each_example_gives_its_number(self):
        known = {"dzwonolin": dzwonolin, "A": paper.CASE_A, "R": paper.RECORDS_A, "B": stations.TEXT,
                 "F": stations.FILES["station.dscalar.nii"], "L": LABEL, "labelled": labelled, "G": stations.LABELS}
        for number, (_, example, _) in tool().sections().items():
            with self.subTest(number=number):
                self.assertEqual(eval(example, dict(known)), number)

    def test_why_a_number(self):
        for number, words in dzwonolin_reasons.REASONS.items():
            status, out, _ = asked("why", str(number))
            self.assertEqual((status, out.splitlines()[0]), (0, f"refused {number}: {words}"))
            self.assertEqual(dzwonolin.Refused(number).reason, words)

    def test_dz_reason_compiles_without_a_warning(self):
        clang = served.kit() / "toolchain" / "bin" / "clang"
        source = '#include "dzwonolin.h"\nconst char *words(void);\nconst char *words(void) { return dz_reason(DZ_NUMBER); }\n'
        for language in ("c", "c++"):
            with tempfile.NamedTemporaryFile("w", suffix=".c") as file:
                file.write(source)
                file.flush()
                subprocess.run([clang, "--target=x86_64-unknown-linux-gnu", "-x", language, "-ffreestanding", "-Wall", "-Wextra", "-Werror",
                                "-I", served.PLAIN_C, "-I", ROOT / "include", "-fsyntax-only", file.name], check=True)

    def test_the_examples_are_as_they_are_made(self):
        for name, data in stations.FILES.items():
            self.assertEqual((stations.FOLDER / name).read_bytes(), data, name)
