"""The command: what it prints, in each form, and its exit statuses."""
import contextlib
import io
import json
import os
import pathlib
import subprocess
import sys
from unittest import mock

import dzwonolin
import dzwonolin_command
import paper
import stations
from users_asked import InFolder, asked

HERE = pathlib.Path(__file__).resolve().parent
GOOD, BAD = "examples/station.dscalar.nii", "examples/misspelt.dscalar.nii"
COUNTS = ("S  CORTEX_LEFT   4  0\nS  CORTEX_RIGHT  3  4\nV  BRAIN_STEM    2  7\n"
          "dimension 0 scalars 2\ndimension 1 brain 9\n")


class Files(InFolder):
    def test_counts(self):
        self.assertEqual(asked("counts", GOOD), (0, COUNTS, ""))

    def test_counts_of_several_files_name_each(self):
        status, out, err = asked("counts", GOOD, BAD, GOOD)
        self.assertEqual((status, out), (1, f"{GOOD}:\n{COUNTS}" * 2))
        self.assertEqual(err.count("\n"), 1)
        self.assertIn(f"{BAD}: refused 6: an element, attribute", err)

    def test_counts_as_json_and_as_a_table(self):
        status, out, _ = asked("counts", "--json", GOOD, BAD)
        good, bad = map(json.loads, out.splitlines())
        self.assertEqual((status, good["number"], bad["number"]), (1, 0, 6))
        self.assertEqual(good["models"][1], {"dimension": 1, "type": "S", "structure": "CORTEX_RIGHT", "count": 3, "first": 4})
        self.assertEqual(good["dimensions"], [{"kind": "scalars", "length": 2}, {"kind": "brain", "length": 9}])
        status, out, _ = asked("counts", "--tsv", GOOD)
        self.assertEqual(out.splitlines()[0::3], ["file\tdimension\ttype\tstructure\tcount\tfirst", f"{GOOD}\t1\tV\tBRAIN_STEM\t2\t7"])

    def test_card_is_the_paper_s(self):
        self.write("a.xml", paper.CASE_A)
        self.assertEqual(asked("list", "a.xml", "--lengths", "2,3"), (0, paper.CARD_A.decode(), ""))
        self.assertEqual(asked("card", "a.xml", "--lengths", "2,3"), (0, (paper.CARD_A + paper.MODELS_A).decode(), ""))
        with contextlib.redirect_stdout(io.StringIO()) as printed:
            self.assertEqual(dzwonolin.main(["list", "a.xml", "2,3"]), 0)
        self.assertEqual(printed.getvalue(), paper.CARD_A.decode())

    def test_card_of_a_refused_file(self):
        status, out, err = asked("card", BAD)
        self.assertEqual((status, out), (1, "refused 6\n"))
        self.assertIn("no", err)

    def test_names(self):
        self.assertEqual(asked("names", GOOD), (0, "0 thickness\n1 curvature\n", ""))
        self.assertEqual(asked("names", GOOD, "0")[1], "0 thickness\n1 curvature\n")
        status, out, err = asked("names", GOOD, "1")
        self.assertEqual((status, out), (1, ""))
        self.assertIn("refused 18", err)
        self.station(b">thickness<", b">a\tb\n&amp;<")
        self.assertEqual(asked("names", "other.dscalar.nii")[1], "0 a\\tb\\n&amp;\n1 curvature\n")
        self.assertEqual(json.loads(asked("names", "--json", GOOD)[1])["names"], [{"dimension": 0, "names": ["thickness", "curvature"]}])

    def test_check_of_a_folder(self):
        self.write("examples/notes.txt", b"")
        status, out, err = asked("check", "-r", "examples")
        self.assertEqual((status, err), (1, ""))
        self.assertEqual([line.split(": ")[:2] for line in out.splitlines()],
                         [[BAD, "refused 6"], ["examples/nineteen_days.dscalar.nii", "ok"], [GOOD, "ok"]])
        self.assertEqual(asked("check", "--tsv", GOOD)[1], f"file\tnumber\treason\n{GOOD}\t0\tok\n")

    def test_standard_input(self):
        data = stations.FILES["station.dscalar.nii"]
        self.assertEqual(asked("counts", "-", given=data + bytes(1000))[:2], (0, COUNTS))
        self.assertEqual(asked("counts", "-", "--lengths", "2,9", given=stations.TEXT)[:2], (0, COUNTS))
        self.assertEqual(asked("counts", "-", given=data[:-40]), asked("counts", "-", given=data))
        self.assertEqual(asked("check", "-", given=data[:700])[1].split(": ")[1], "refused 22")

    def test_two_brain_maps_and_one_on_two_dimensions(self):
        text = stations.TEXT
        brain = text[text.index(b'    <MatrixIndicesMap AppliesToMatrixDimension="1"'):text.index(b"  </Matrix>")]
        scalars = text[text.index(b"    <MatrixIndicesMap"):text.index(brain)]
        self.write("two.nii", stations.nii(stations.changed(scalars, brain.replace(b'Dimension="1"', b'Dimension="0"')), [9, 9]))
        lines = asked("counts", "two.nii")[1].splitlines()
        self.assertEqual((lines[0], lines[4], len(lines)), ("brain map of dimension 0", "brain map of dimension 1", 10))
        one = stations.changed(scalars, b"").replace(b'Dimension="1"', b'Dimension="0,1"')
        self.write("one.nii", stations.nii(one, [9, 9]))
        lines = asked("counts", "one.nii")[1].splitlines()
        self.assertEqual(lines[3:], ["dimension 0 brain 9", "dimension 1 brain 9"])


class Statuses(InFolder):
    def test_could_not_ask(self):
        for words, said in ((["counts", "nosuch.nii"], "nosuch.nii: No such file or directory"),
                            (["counts", "examples"], "examples: is a folder; -r reads the files in it"),
                            (["check", "-r", os.path.join("examples", "..", "none")], "No such file"),
                            (["why", "nosuch.nii"], "nosuch.nii: No such file or directory"),
                            (["wall", "--against", "no.wall", GOOD], "no.wall: No such file or directory"),
                            (["wall", "--against", GOOD, GOOD], "is no wall")):
            status, out, err = asked(*words)
            self.assertEqual((status, out, err.count("\n")), (3, "", 1), words)
            self.assertIn(said, err)

    def test_wrong_use(self):
        for words in ([], ["counts"], ["counts", GOOD, "--lengths", "2, 9"], ["counts", "--json", "--tsv", GOOD], ["nosuch"], ["why", "99"],
                      ["names", GOOD, "first"], ["wall", GOOD, GOOD], ["wall", "--page", "--json", GOOD]):
            status, out, err = asked(*words)
            self.assertEqual((status, out), (2, ""), words)
            self.assertTrue(err)

    def test_the_worst_status_counts(self):
        self.assertEqual([asked("check", *files)[0] for files in ([GOOD], [GOOD, BAD], [BAD, "nosuch", GOOD])], [0, 1, 3])

    def test_help_has_an_example_for_each_command(self):
        status, out, _ = asked("--help")
        self.assertEqual(status, 0)
        for name in ("counts", "card", "list", "names", "check", "wall", "labels", "why"):
            self.assertIn(f"  dzwonolin {name} ", out)
            status, told, _ = asked(name, "--help")
            self.assertEqual((status, "example: dzwonolin" in told), (0, True))
        self.assertEqual(asked("--version"), (0, f"dzwonolin {dzwonolin.__version__}\n", ""))

    def test_progress_on_a_terminal_alone(self):
        class Terminal(io.StringIO):
            def isatty(self):
                return True
        shown = Terminal()
        with contextlib.redirect_stderr(shown), contextlib.redirect_stdout(io.StringIO()) as printed:
            dzwonolin_command.main(["check", GOOD, GOOD])
        self.assertIn(f"2 of 2: {GOOD}", shown.getvalue())
        self.assertTrue(shown.getvalue().endswith("\r\033[K"))
        self.assertEqual(printed.getvalue(), f"{GOOD}: ok\n" * 2)
        self.assertEqual(asked("check", GOOD, GOOD)[2], "")

    def test_compare_is_offered_where_the_library_has_it(self):
        has = dzwonolin.has
        with mock.patch.object(dzwonolin, "has", lambda name: name == "dz_compare" or has(name)), \
                mock.patch.object(dzwonolin, "compare", lambda a, b: (0, 7, 1, 1, 0) if a != b else (0, 9, 0, 0, 0), create=True):
            self.assertIn("dzwonolin compare ", asked("--help")[1])
            self.assertEqual(asked("compare", GOOD, GOOD), (0, "same 9 moved 0 first 0 second 0\n", ""))
            self.write("old.sheet", dzwonolin.open(GOOD).sheet())
            status, out, _ = asked("compare", "old.sheet", "examples/nineteen_days.dscalar.nii")
            self.assertEqual((status, out.splitlines()[0]), (1, "same 7 moved 1 first 1 second 0"))
            self.assertEqual((asked("compare", GOOD, BAD)[0], asked("compare", GOOD, "nosuch")[0]), (1, 3))
        if not (hasattr(dzwonolin, "compare") and has("dz_compare")):
            self.assertEqual(asked("compare", GOOD, GOOD)[0], 2)

    def test_what_a_file_looks_like(self):
        self.write("a.nii.gz", b"\x1f\x8b" + bytes(600))
        self.write("a.xml", stations.TEXT)
        self.assertIn("compressed, by gzip", asked("counts", "a.nii.gz")[2])
        self.assertIn("--lengths", asked("counts", "a.xml")[2])
        status, out, err = asked("card", GOOD, "--lengths", "2,9")
        self.assertEqual((status, out), (1, "refused 3\n"))
        self.assertIn("ask without --lengths", err)
        self.assertIn("ask without --lengths", " ".join(asked("why", GOOD, "--lengths", "2,9")[1].split()))
        self.assertNotIn("(", asked("counts", self.write("a.nii", stations.nii(b"<a")))[2])


class Program(InFolder):
    """The command as a program of its own."""
    CODE = ("import sys; sys.path[:0] = {paths!r}\nimport dzwonolin, served\nif served.needed(): served.install(dzwonolin)\n"
            "import dzwonolin_command; sys.argv[1:] = {words!r}\ndzwonolin_command.script()")

    def test_a_closed_pipe_ends_quietly(self):
        text = stations.TEXT.replace(b'Count="4"', b'Count="40000"').replace(b"0 1 5 11", " ".join(map(str, range(40000))).encode())
        for old, new in ((b'"12"', b'"50000"'), (b'Offset="4"', b'Offset="40000"'), (b'Offset="7"', b'Offset="40003"')):
            text = text.replace(old, new)
        self.write("long.nii", stations.nii(text, [2, 40005]))
        code = self.CODE.format(paths=[str(HERE), str(HERE.parent / "python")], words=["card", "long.nii"])
        run = subprocess.Popen([sys.executable, "-c", code], stdout=subprocess.PIPE, stderr=subprocess.PIPE, cwd=self.folder)
        self.assertEqual(run.stdout.readline(), b"ok\n")
        run.stdout.close()
        self.assertEqual((run.stderr.read(), run.wait() != 0), (b"", True))
        run.stderr.close()

    def test_no_library_and_one_for_another_processor(self):
        machine = 62 if os.uname().machine != "x86_64" else 183
        self.write("other.so", b"\x7fELF" + bytes(14) + machine.to_bytes(2, "little") + bytes(100))
        self.write("broken.so", b"no library")
        for name, said in (("other.so", b"and this machine is"), ("nosuch.so", b"nosuch.so"), ("broken.so", b"broken.so")):
            run = subprocess.run([sys.executable, HERE.parent / "dzwonolin", "counts", GOOD], cwd=self.folder, capture_output=True,
                                 env={**os.environ, "DZWONOLIN_LIBRARY": os.path.join(self.folder, name)})
            self.assertEqual((run.returncode, run.stdout, run.stderr.count(b"\n")), (3, b"", 1), run.stderr)
            self.assertIn(said, run.stderr)
