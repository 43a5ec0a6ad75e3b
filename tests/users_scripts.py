"""The scripts at the top: wrong use, no kit and no file are told in one sentence; a failed proof by its crate, first error and log."""
import os
import pathlib
import shutil
import subprocess
import tempfile
import unittest

ROOT = pathlib.Path(__file__).resolve().parent.parent


def run(*words, **more):
    return subprocess.run(words, cwd=ROOT, capture_output=True, text=True, **more)


def without_kit():
    """A PATH of the usual programs without rt."""
    folder = tempfile.mkdtemp()
    for name in ("sh", "dirname", "uname", "cat", "sed", "awk", "ls", "cp", "mkdir"):
        os.symlink(shutil.which(name), os.path.join(folder, name))
    return folder


class Scripts(unittest.TestCase):
    def told(self, done, status, words):
        self.assertEqual((done.returncode, done.stdout, done.stderr.count("\n")), (status, "", 1), done.stderr)
        self.assertIn(words, done.stderr)

    def test_card(self):
        self.told(run("./card"), 2, "usage: ./card FILE")
        self.told(run("./card", "nosuch"), 3, "nosuch: no such file")

    def test_without_the_kit(self):
        folder = without_kit()
        self.addCleanup(shutil.rmtree, folder)
        for words in (["./library"], ["./example"]):
            self.told(run(*words, env={"PATH": folder}), 3, "rt is not on the PATH")

    def test_the_card_without_the_kit(self):
        if not (ROOT / "target" / "bin" / "lister").exists():
            self.skipTest("the lister is not built")
        folder = without_kit()
        self.addCleanup(shutil.rmtree, folder)
        done = run("./card", "crates/lister/stdin", env={"PATH": folder})
        self.assertEqual((done.returncode, done.stdout), (0, (ROOT / "crates" / "lister" / "stdout").read_text()))

    def test_a_failed_proof(self):
        with tempfile.TemporaryDirectory() as folder:
            stand_in = pathlib.Path(folder) / "rt"
            stand_in.write_text("#!/bin/sh\necho '== lists'; echo 'logic=proved functions=0'; echo '== nodes'\n"
                                "echo './proofs/x.antt:2:3: error: no'; echo y: error: z; echo '== summary'\n"
                                "echo 'nodes: failed (check)'; exit 5\n")
            stand_in.chmod(0o755)
            done = run("tools/proving", f"{folder}/log", "nodes", env={**os.environ, "PATH": f"{folder}:{os.environ['PATH']}"})
        self.assertEqual(done.returncode, 5)
        self.assertRegex(done.stdout, r"\A1 of \d+: lists proved, \d+ s so far\n")
        self.assertEqual(done.stdout.splitlines()[1:], [
            "failed: nodes", "first error: ./proofs/x.antt:2:3: error: no", f"all that was said: {folder}/log"])

    def test_the_card_of_a_refused_text(self):
        if not (ROOT / "target" / "bin" / "lister").exists():
            self.skipTest("the lister is not built")
        text = (ROOT / "crates" / "lister" / "stdin").read_bytes()
        with tempfile.NamedTemporaryFile() as file:
            file.write(text.replace(b'IndexOffset="2"', b'IndexOffset="1"'))
            file.flush()
            done = run("./card", file.name)
        self.assertEqual((done.returncode, done.stdout), (1, "refused 11\n"))
