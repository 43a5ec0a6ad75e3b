#!/usr/bin/env python3
"""No public function has a `requires` but those that docs/EXCEPTIONS.md owes, and no door has one.

The functions are read from src/ of each crate, those that are owed from the section 'Functions with a `requires`'. How many there are stands
here too: one more is a fault, and one less is written down here.
"""
import pathlib
import re
import sys

ROOT = pathlib.Path(__file__).resolve().parent.parent
FUNCTION = re.compile(r'^ *((?:pub(?:\(\w+\))? )?)(?:const )?(?:extern "C" )?fn (\w+)', re.M)
OWED = 23
# The crates whose public functions are all doors (docs/EXCEPTIONS.md).
DOORS = ("reader record_fields repeats compare markup walk input card front file_reader label_reader gifti_reader all_names shortlisting "
         "record_doors record_doors_c dzwonolin dzwonolin_c").split()


def required(path):
    """The functions of a file with a `requires`: of each its name, and whether it is public."""
    text = path.read_text(encoding="utf-8")
    begins = [*FUNCTION.finditer(text)]
    for one, end in zip(begins, [*(two.start() for two in begins[1:]), len(text)]):
        clauses = re.split(r"^ *\{$", text[one.start():end], maxsplit=1, flags=re.M)[0]
        if re.search(r"^ *requires\b", clauses, re.M):
            yield one.group(2), one.group(1).strip() == "pub"


def owed():
    """What the section of docs/EXCEPTIONS.md names behind its heading."""
    text = (ROOT / "docs" / "EXCEPTIONS.md").read_text(encoding="utf-8")
    section = text.split("## Functions with a `requires`")[1].split("\n## ")[0].split("\n- ", 1)[1]
    return {name.split("::")[-1] for name in re.findall(r"`([a-z_:]+)`", section)}


def main():
    files = sorted((ROOT / "crates").glob("*/src/**/*.rt"))
    every = [(path.relative_to(ROOT / "crates").parts[0], *one) for path in files for one in required(path)]
    public = [(crate, name) for crate, name, of_all in every if of_all]
    faults = [f"{crate}: {name} is public, has a `requires` and is not owed" for crate, name in public if name not in owed()]
    faults += [f"{crate}: {name} is a door and has a `requires`" for crate, name in public if crate in DOORS]
    if len(public) != OWED:
        faults.append(f"{OWED} public functions with a `requires` are owed, and {len(public)} have one")
    for fault in faults:
        print(fault)
    print(f"{len(every)} functions with a `requires`, {len(public)} of them public between crates, {len(faults)} faults")
    return 1 if faults else 0


if __name__ == "__main__":
    sys.exit(main())
