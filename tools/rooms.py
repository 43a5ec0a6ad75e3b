"""A crate in a folder of its own, with all that it rests on and what was proved of them, where a change is tried by `rt check`.

Rooms stand outside of the checkout, so that nothing here is changed and several changes are tried side by side.
"""
import concurrent.futures
import contextlib
import os
import pathlib
import re
import shutil
import subprocess
import sys
import tempfile

ROOT = pathlib.Path(__file__).resolve().parent.parent
# What a check of a crate takes, in GB.
MEMORY = 3


def lines():
    """The line of each crate in crates.txt."""
    told = [line.split("#")[0].strip() for line in (ROOT / "crates.txt").read_text(encoding="utf-8").splitlines()]
    return {line.split(":")[0].split()[0]: line for line in told if line}


def below(name):
    """The crates that a crate rests on, each behind those that it rests on itself."""
    known, found = lines(), []

    def look(one):
        for other in known[one].partition(":")[2].split():
            if other in known and other not in found:
                look(other)
                found.append(other)
    look(name)
    return found


def link(one, other):
    """A second name for a file that the prover replaces and never changes; a copy where it can have none."""
    try:
        os.link(one, other)
    except OSError:
        shutil.copy2(one, other)


def link_proofs(one, other):
    (link if str(one).endswith(".oantt") else shutil.copy2)(one, other)


def prepared(names):
    """Has what the named crates rest on built, and themselves checked once, where that is not kept here; the status of rt."""
    for name in names:
        kept = [ROOT / "crates" / one / "out" / "rlib" / "stamp" for one in below(name)]
        if all(one.exists() for one in [*kept, ROOT / "crates" / name / "out" / "incremental"]):
            continue
        status = subprocess.run(["rt", "check"], cwd=ROOT / "crates" / name, stdout=sys.stderr).returncode
        if status:
            return status
    return 0


@contextlib.contextmanager
def room(name, begun=True):
    """The folder of a crate in a new room; where it is not begun, without what was proved of the crate itself, but with its edits."""
    with tempfile.TemporaryDirectory(prefix="room-") as folder:
        top, each = pathlib.Path(folder), [*below(name), name]
        (top / "crates.txt").write_text("".join(f"{lines()[one]}\n" for one in each), encoding="utf-8")
        for one in each:
            here, there = ROOT / "crates" / one, top / "crates" / one
            for part in ("src", "specs", "proofs"):
                if (here / part).is_dir():
                    shutil.copytree(here / part, there / part)
            (there / "out").mkdir()
            if one != name and (here / "out" / "rlib").is_dir():
                shutil.copytree(here / "out" / "rlib", there / "out" / "rlib", copy_function=link)
        here, there = ROOT / "crates" / name, top / "crates" / name
        if begun and (here / "out" / "incremental").is_dir():
            shutil.copytree(here / "out" / "incremental", there / "out" / "incremental", copy_function=link_proofs)
        if not begun and (here / "must-fail").is_dir():
            shutil.copytree(here / "must-fail", there / "must-fail")
        yield there


def check(crate, *flags):
    """The status of `rt check` in a room, and what it says."""
    call = ["rt", "check", "--jobs", "1", *flags]
    done = subprocess.run(call, cwd=crate, stdout=subprocess.PIPE, stderr=subprocess.STDOUT, text=True, errors="replace")
    return done.returncode, done.stdout


def at_once():
    """How many checks run side by side: one a core, as memory allows."""
    free = re.search(r"^MemAvailable: +(\d+) kB", pathlib.Path("/proc/meminfo").read_text(), re.M)
    return max(1, min(len(os.sched_getaffinity(0)), int(free.group(1)) // (MEMORY * 1_000_000) if free else 1))


def each(call, given):
    """The results of a call of each, several side by side, in their order."""
    with concurrent.futures.ThreadPoolExecutor(at_once()) as pool:
        yield from pool.map(call, given)
