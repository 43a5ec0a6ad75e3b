"""The lister and the comparer, fed in pieces: what they print must be the same, byte for byte, however their input comes.

    python3 tests/refills.py

The old reader began its list again at every refill of its buffer. Here each input comes whole out of a file, and then through a pipe: in
one piece, in single bytes, cut in the first line, cut at and near 32,768, and through a pipe of one page, where the system cuts it. A piece
is written when the one before it has been taken, so no read gets two. The last line says how many runs were the same; the exit status is 1
if one differs.
"""
import array
import contextlib
import fcntl
import os
import pathlib
import subprocess
import sys
import tempfile
import termios
import threading
import time

ROOT = pathlib.Path(__file__).resolve().parent.parent
sys.path[:0] = [str(ROOT / "tests"), str(ROOT / "python")]

import dzwonolin_oracle as oracle  # noqa: E402
import served  # noqa: E402
import stations  # noqa: E402
import texts  # noqa: E402

ROOM = 32768


def cards():
    """Inputs and cards: case A, the text of examples/station.dscalar.nii, and a list that runs through as long a text as is read."""
    yield tuple((ROOT / "crates" / "lister" / name).read_bytes() for name in ("stdin", "stdout"))
    station = b"%d,%d\n" % tuple(stations.LENGTHS) + stations.TEXT
    yield station, oracle.lister(station)
    line, text = next(texts.limit_cards())[1].split(b"\n")
    longest = line + b"\n" + text.replace(b" ", b" " * 11).ljust(ROOM)
    assert oracle.lister(longest).startswith(b"ok\n0 scalars 2\n1 brain 2048 0\n")
    yield from [(longest, oracle.lister(longest)), (longest + b" ", b"refused 2\n"), (longest.ljust(100000), b"refused 2\n")]


def sheets():
    """Inputs and what changed: the stored pair of sheets, and 2,340 records that the second sheet has in the other order."""
    yield tuple((ROOT / "crates" / "comparer" / name).read_bytes() for name in ("stdin", "stdout"))
    records = [18 << 48 | vertex for vertex in range(2340)]
    pair = oracle.pack(records)[1] + oracle.pack(records[::-1])[1]
    assert len(pair) == ROOM
    yield pair, b"".join(b"moved %d S 18 %d\n" % (n, n) for n in range(2340))
    yield from [(pair + b"\0", b"refused 15\n"), (pair.ljust(100000, b"\0"), b"refused 15\n")]


def cut(size):
    """Where an input of this size is cut, by name."""
    ways = {"in one piece": [], "through a pipe of one page": [],
            "in single bytes, then larger pieces": [*range(1, 201), *range(1200, size, 1000)],
            "in single bytes near 32,768": range(ROOM - 8, ROOM + 32),
            **{f"cut at {place}": [place] for place in (1, 2, 3, ROOM - 1, ROOM, ROOM + 1)}}
    return {way: [place for place in places if place < size] for way, places in ways.items() if min(places, default=0) < size}


def fed(command, given, way, places):
    """What a program prints, on standard error too, where its input comes in pieces."""
    program = subprocess.Popen(command, stdin=subprocess.PIPE, stdout=subprocess.PIPE, stderr=subprocess.STDOUT, bufsize=0)
    late = threading.Timer(60, program.kill)
    late.start()
    pipe, left = program.stdin.fileno(), array.array("i", [0])
    if way == "through a pipe of one page":
        fcntl.fcntl(pipe, 1031, 4096)  # F_SETPIPE_SZ, which Python names since 3.10
    with contextlib.suppress(BrokenPipeError):  # a program to which too much comes does not wait for all of it
        for start, end in zip([0, *places], [*places, len(given)]):
            os.write(pipe, given[start:end])
            while fcntl.ioctl(pipe, termios.FIONREAD, left) == 0 and left[0] and program.poll() is None:
                time.sleep(0.0001)
    printed = program.communicate()[0]
    late.cancel()
    return printed


def main():
    right = []
    for name, inputs in (("lister", cards()), ("comparer", sheets())):
        command = [ROOT / "target" / "bin" / name]
        for given, wanted in inputs:
            with tempfile.TemporaryFile() as file:
                file.write(given)
                file.seek(0)
                got = {"out of a file": subprocess.run(command, stdin=file, capture_output=True, timeout=60).stdout}
            got.update((way, fed(command, given, way, places)) for way, places in cut(len(given)).items())
            right += [printed == wanted for printed in got.values()]
            for way in [way for way, printed in got.items() if printed != wanted]:
                print(f"{name}, {len(given)} bytes, {way}: got {got[way][:60]!r}, wanted {wanted[:60]!r}")
    print(f"{sum(right)} runs the same, {right.count(False)} differ")
    return 0 if all(right) else 1


if __name__ == "__main__":
    raise SystemExit(main())
