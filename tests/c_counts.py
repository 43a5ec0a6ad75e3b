"""examples/c/counts.c, as C and as C++, with warnings as errors, linked in the three usual ways and run on a file.

    python3 tests/c_counts.py
It is built by the kit's compiler for x86-64, with the few headers under tests/plain_c. Where the machine has compilers of its own, they
read it too, with its own headers.
"""
import os
import pathlib
import shutil
import struct
import subprocess
import tempfile

import paper
import served

ROOT = pathlib.Path(__file__).resolve().parent.parent
SOURCE = ROOT / "examples" / "c" / "counts.c"
WARNINGS = ["-O2", "-Wall", "-Wextra", "-Wshadow", "-pedantic", "-Werror"]
LANGUAGES = {"C": ["-std=c99", "-x", "c"], "C++": ["-std=c++11", "-x", "c++"]}
COUNTS_A = "0 scalars 2\n1 brain 3\nS 18 2 0\nV 6 1 2\n"


def nii(text, lengths):
    """A NIfTI-2 file with this header text, up to its matrix."""
    body = text + bytes(-(len(text) + 8) % 16)
    dims = [4 + len(lengths), 1, 1, 1, 1, *lengths, 1][:8]
    header = bytearray(540)
    struct.pack_into("<i8s", header, 0, 540, b"n+2\0\r\n\x1a\n")
    struct.pack_into("<8q", header, 16, *dims)
    struct.pack_into("<q", header, 168, 544 + 8 + len(body))
    return bytes(header) + b"\1\0\0\0" + struct.pack("<2i", 8 + len(body), 32) + body


def ways(folder):
    """Each way to link: a word for the compiler, and what the linker takes."""
    return {"archive": ([], [folder / "libdzwonolin.a"]), "shared": ([], [folder / "libdzwonolin.so"]), "opened": (["-DOPENED"], [])}


def built(tools, libraries, headers, scratch, language, way):
    """The program, for x86-64."""
    words, linked = ways(libraries)[way]
    compiled, program, parts = scratch / "counts.o", scratch / f"counts_{way}", tools / "lib"
    subprocess.run([tools / "bin" / "clang", "--target=x86_64-unknown-linux-gnu", "-nostdinc", "-fPIE",
                    "-I", served.PLAIN_C, "-I", headers, *LANGUAGES[language], *WARNINGS, *words,
                     "-c", SOURCE, "-o", compiled], check=True)
    subprocess.run([tools / "bin" / "ld.lld", "-pie", "-dynamic-linker", "/lib64/ld-linux-x86-64.so.2", parts / "Scrt1.o", parts / "crti.o",
                    parts / "crtbeginS.o", compiled, *linked, parts / "libc.so.6", parts / "libc_nonshared.a", parts / "libgcc.a",
                    parts / "ld-linux-x86-64.so.2", parts / "crtendS.o", parts / "crtn.o", "-o", program], check=True)
    return program


def run(libraries, program, file):
    """Its status, and what it wrote."""
    environment = {**os.environ, "LD_LIBRARY_PATH": str(libraries)}
    done = subprocess.run([program, file], capture_output=True, text=True, timeout=60, env=environment)
    return done.returncode, done.stdout


def wrong(libraries, headers):
    tools = served.kit() / "toolchain"
    with tempfile.TemporaryDirectory() as name:
        scratch = pathlib.Path(name)
        good, bad, missing = scratch / "a.dscalar.nii", scratch / "b.nii", scratch / "c.nii"
        good.write_bytes(nii(paper.CASE_A, [2, 3]))
        bad.write_bytes(b"no file")
        for language, way in [(language, way) for language in LANGUAGES for way in ways(libraries)]:
            program = built(tools, libraries, headers, scratch, language, way)
            for file, wanted in ((good, (0, COUNTS_A)), (bad, (1, "refused 20\n")), (missing, (3, ""))):
                got = run(libraries, program, file)
                if got != wanted:
                    yield f"counts as {language}, {way}, {file.name}: {got}, wanted {wanted}"


def read_by_this_machine():
    """The machine's own compilers on the example, with its own headers; those that take it with a warning."""
    for compiler, language in (("cc", "C"), ("c++", "C++"), ("clang", "C")):
        for words in ([], ["-DOPENED"]):
            if shutil.which(compiler) and subprocess.run([compiler, "-fsyntax-only", "-I", ROOT / "include", *LANGUAGES[language],
                                                          *WARNINGS, *words, SOURCE]).returncode:
                yield f"{compiler} {' '.join(words)} warns of the example"


def main():
    bad = [*read_by_this_machine(), *wrong(ROOT / "target", ROOT / "include")]
    print("\n".join(bad) or "the example in C, as C and C++, with the archive, the shared library and the library opened: all as wanted")
    return 1 if bad else 0


if __name__ == "__main__":
    raise SystemExit(main())
