"""A copy of the kit with a store of its own, so that what other runs on this machine proved is not taken; its prover may be a clock."""
import os
import pathlib
import shutil
import sys

PROVER = """#!{python}
import os, resource, subprocess, sys
status = subprocess.call([{real!r}] + sys.argv[1:])
used = resource.getrusage(resource.RUSAGE_CHILDREN)
with open({log!r}, "a") as log:
    log.write("\\t".join([str(used.ru_utime + used.ru_stime), os.getcwd()] + sys.argv[1:]) + "\\n")
sys.exit(status if status >= 0 else 128 - status)
"""


def kit(folder, log=None):
    """The command rt of a copy of the kit in a new folder: links, but for the scripts of rt, which find their kit by where they lie. With a
    log its prover is a program that runs the real one and notes the seconds of CPU, the folder and the words of each call."""
    real = pathlib.Path(os.path.realpath(shutil.which("rt"))).parent.parent
    here = folder / "kit" / "kit"
    (here / "bin").mkdir(parents=True)
    for thing in real.iterdir():
        if thing.name != "bin":
            (here / thing.name).symlink_to(thing)
    for thing in (real / "bin").iterdir():
        if thing.name == "rattle" and log:
            log.touch()
            (here / "bin" / "rattle").write_text(PROVER.format(python=sys.executable, real=str(thing), log=str(log)))
            (here / "bin" / "rattle").chmod(0o755)
        elif thing.name == "rt" or thing.suffix == ".py":
            shutil.copy(thing, here / "bin" / thing.name)
        else:
            (here / "bin" / thing.name).symlink_to(thing)
    return here / "bin" / "rt"
