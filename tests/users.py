"""The three users' first minutes: the command, the wall, the words for the numbers, and the Python module, over the built library.

    python3 tests/users.py [NAME..]      the tests of users_*.py, by unittest; with the library as it is, or served (tests/served.py)
"""
import pathlib
import sys
import unittest

HERE = pathlib.Path(__file__).resolve().parent
sys.path[:0] = [str(HERE), str(HERE.parent / "python")]

import dzwonolin  # noqa: E402
import served  # noqa: E402

PARTS = ["users_command", "users_wall", "users_words", "users_why", "users_python", "users_labels", "users_scripts"]

if __name__ == "__main__":
    served.ready(dzwonolin)
    unittest.main(module=None, argv=[sys.argv[0], *(sys.argv[1:] or PARTS)], verbosity=1)
