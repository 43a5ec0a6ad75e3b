"""The wall: the same file, every kind of difference, the nineteen days; and the page."""
import pathlib
import re
import shutil
import subprocess
import tempfile

import dzwonolin
import dzwonolin_page
import dzwonolin_wall
import stations
from users_asked import InFolder, asked

GOOD = "examples/station.dscalar.nii"


class Against(InFolder):
    def setUp(self):
        super().setUp()
        self.write("centre.wall", asked("wall", GOOD)[1].encode())

    def said(self, old, new, lengths=stations.LENGTHS, wall="centre.wall"):
        """What is said of the station's file with one change, held against its wall."""
        status, out, err = asked("wall", "--against", wall, self.station(old, new, lengths=lengths))
        self.assertEqual((status, err), (1, ""))
        return out.splitlines()

    def test_the_same(self):
        self.assertEqual(asked("wall", "--against", "centre.wall", GOOD), (0, "ok\n", ""))

    def test_the_nineteen_days(self):
        """The counts are right and the answers wrong: the counts do not tell, the wall does."""
        bad = "examples/nineteen_days.dscalar.nii"
        self.assertEqual(asked("counts", bad), asked("counts", GOOD))
        self.assertEqual(asked("wall", "--against", "centre.wall", bad),
                         (1, "CORTEX_RIGHT (surface): the same count, 3, with other locations\n", ""))

    def test_models(self):
        self.assertEqual(self.said(b"CORTEX_RIGHT", b"OTHER"),
                         ["CORTEX_RIGHT (surface): missing, 3 locations on the wall", "OTHER (surface): new, 3 locations"])

    def test_another_count(self):
        text = stations.changed(b">0 1 5 11<", b">0 1 5<").replace(b'Count="4"', b'Count="3"')
        text = text.replace(b'Offset="4"', b'Offset="3"').replace(b'Offset="7"', b'Offset="6"')
        self.write("short.nii", stations.nii(text, [2, 8]))
        self.assertEqual(asked("wall", "--against", "centre.wall", "short.nii")[1].splitlines(), [
            "dimension 1: brain 8, and on the wall brain 9", "CORTEX_LEFT (surface): 3 locations, and 4 on the wall",
            "CORTEX_RIGHT (surface): begins at index 3, and at 4 on the wall, with the same locations",
            "BRAIN_STEM (voxels): begins at index 6, and at 7 on the wall, with the same locations"])

    def test_one_voxel(self):
        self.assertEqual(self.said(b"2 3 6", b"2 3 7"), ["BRAIN_STEM (voxels): the same count, 2, with other locations"])

    def test_order_within_a_model_counts(self):
        self.assertEqual(self.said(b"3 4 10", b"4 3 10"), ["CORTEX_RIGHT (surface): the same count, 3, with other locations"])

    def test_names_and_dimensions(self):
        self.assertEqual(self.said(b"curvature", b"myelin"), ["name 0 1: myelin, and on the wall curvature"])
        self.assertEqual(self.said(b"      <NamedMap><MapName>curvature</MapName></NamedMap>\n", b"", [1, 9]),
                         ["dimension 0: scalars 1, and on the wall scalars 2", "name 0 1: missing, and on the wall curvature"])

    def test_a_line_is_of_the_card(self):
        """The digest of a model is that of its lines on the card."""
        import hashlib
        lines = asked("list", GOOD)[1].splitlines()[3:]
        told = [line.split()[-1] for line in asked("wall", GOOD)[1].splitlines() if line.startswith("model")]
        whole = [hashlib.sha256("".join(x + "\n" for x in part).encode()).hexdigest() for part in (lines[:4], lines[4:7], lines[7:])]
        self.assertEqual(told, whole)

    def test_a_wall_with_a_sheet_names_each_index(self):
        self.write("sheet.wall", asked("wall", "--sheet", GOOD)[1].encode())
        self.assertEqual(asked("wall", "--against", "sheet.wall", GOOD), (0, "ok\n", ""))
        self.assertEqual(asked("wall", "--against", "sheet.wall", "examples/nineteen_days.dscalar.nii")[1].splitlines(), [
            "CORTEX_RIGHT (surface): the same count, 3, with other locations",
            *(f"index {n} of dimension 1: vertex {new} of CORTEX_RIGHT, and on the wall vertex {old} of CORTEX_RIGHT"
              for n, new, old in ((4, 0, 3), (5, 1, 4), (6, 2, 10)))])
        self.assertEqual(self.said(b"2 3 6", b"2 3 7", wall="sheet.wall")[1],
                         "index 8 of dimension 1: voxel 2 3 7 of BRAIN_STEM, and on the wall voxel 2 3 6 of BRAIN_STEM")
        with open("sheet.wall") as file:
            self.write("bad.wall", file.read().replace("sheet 1 BwAA", "sheet 1 BwAB").encode())
        self.assertEqual(asked("wall", "--against", "bad.wall", GOOD)[0], 3)

    def test_several_files_and_forms(self):
        status, out, _ = asked("wall", "--against", "centre.wall", "-r", "examples")
        self.assertEqual((status, out.splitlines()[1]), (1, f"{GOOD}: ok"))
        self.assertIn('"same": true', asked("wall", "--json", "--against", "centre.wall", GOOD)[1])


def parts_of(page):
    """(x, width) of each part of the strip, and the scale's length."""
    length = int(re.search(r'viewBox="0 0 (\d+) 1"', page)[1])
    return [(int(x), int(w)) for x, w in re.findall(r'class="part" x="(\d+)" y="0" width="(\d+)"', page)], length


class Page(InFolder):
    def page(self):
        return asked("wall", "--page", GOOD)[1]

    def test_the_parts_add_up_to_the_map(self):
        parts, length = parts_of(self.page())
        self.assertEqual((parts, length), ([(0, 4), (4, 3), (7, 2)], 9))
        self.assertEqual(sum(width for _, width in parts), length)

    def test_it_is_one_page_without_scripts(self):
        page = self.page()
        self.assertNotRegex(page, r"(?i)<script|https?://|src=|@import|url\(")
        self.assertIn("size: A4", page)
        for words in ("station.dscalar.nii", "CORTEX_RIGHT", "thickness, curvature", "Dimension 1: brain 9"):
            self.assertIn(words, page)
        digest = dzwonolin_wall.models(dzwonolin.open(GOOD))[1].digest
        self.assertIn(f"<code>{digest[:8]}</code>", page)

    def test_names_from_the_file_are_no_markup(self):
        self.station(b">thickness<", b">&lt;script&gt;alert(1)&lt;/script&gt;<")
        self.assertNotIn("<script", asked("wall", "--page", "other.dscalar.nii")[1])
        self.assertIn("&amp;lt;script", asked("wall", "--page", "other.dscalar.nii")[1])

    def test_names_do_not_stand_on_each_other(self):
        for middles in ([91] * 30, [0] * 20, [182] * 43, [10, 90, 90.1, 90.2, 181]):
            found = dzwonolin_page.slots(middles, 4.2)
            self.assertGreaterEqual(min(b - a for a, b in zip(found, found[1:])), 4.19)
            self.assertTrue(0 <= found[0] and found[-1] <= 182)

    def test_every_structure_has_a_colour_of_its_own(self):
        self.assertEqual(len({dzwonolin_page.colour(name) for name in dzwonolin.STRUCTURES}), 32)

    def test_in_a_browser(self):
        browser = shutil.which("chromium") or shutil.which("chromium-browser")
        if not browser:
            self.skipTest("no chromium here: the page was tested by its text")
        page = self.write("wall.html", self.page().encode())
        with tempfile.TemporaryDirectory(ignore_cleanup_errors=True) as profile:
            words = ["--headless", "--no-sandbox", "--disable-gpu", f"--user-data-dir={profile}", "--window-size=800,1130"]
            try:
                run = subprocess.run([browser, *words, "--screenshot=wall.png", pathlib.Path(page).resolve().as_uri()],
                                     cwd=self.folder, capture_output=True, timeout=120)
            except subprocess.TimeoutExpired:
                self.skipTest("chromium did not answer: the page was tested by its text")
        if run.returncode:
            self.skipTest("chromium does not run here: the page was tested by its text")
        shot = pathlib.Path("wall.png").read_bytes() if pathlib.Path("wall.png").exists() else b""
        self.assertEqual((shot[:8], len(shot) > 5000), (b"\x89PNG\r\n\x1a\n", True), run.stderr[-500:])
