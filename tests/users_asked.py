"""The command `dzwonolin` asked in this process, in a folder of its own with the files of examples/."""
import contextlib
import io
import os
import shutil
import sys
import tempfile
import unittest

import dzwonolin_command
import stations


class Input:
    """Standard input that holds these bytes."""

    def __init__(self, data):
        self.buffer = io.BytesIO(data)


def asked(*words, given=b""):
    """(exit status, standard output, standard error) of a command."""
    out, err, kept = io.StringIO(), io.StringIO(), sys.stdin
    sys.stdin = Input(given)
    try:
        with contextlib.redirect_stdout(out), contextlib.redirect_stderr(err):
            status = dzwonolin_command.main(list(words))
    finally:
        sys.stdin = kept
    return status, out.getvalue(), err.getvalue()


class InFolder(unittest.TestCase):
    """Each test in a new folder: examples/ as it is in the tree, and what the test writes."""

    def setUp(self):
        self.home, self.folder = os.getcwd(), tempfile.mkdtemp()
        self.addCleanup(shutil.rmtree, self.folder)
        self.addCleanup(os.chdir, self.home)
        os.chdir(self.folder)
        os.mkdir("examples")
        for name, data in stations.FILES.items():
            self.write(f"examples/{name}", data)

    def write(self, name, data):
        with open(name, "wb") as file:
            file.write(data)
        return name

    def station(self, old, new, name="other.dscalar.nii", lengths=stations.LENGTHS):
        return self.write(name, stations.nii(stations.changed(old, new), lengths))
