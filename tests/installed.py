"""./install and ./package into a scratch folder, and a first call from there.

    python3 tests/installed.py
What is there, the line of pkg-config, the names that the shared library exports, the example in C against what is installed, and the
command; the wheel and the Debian package hold the same.
"""
import base64
import hashlib
import os
import pathlib
import re
import shutil
import struct
import subprocess
import sys
import tempfile
import zipfile

HERE = pathlib.Path(__file__).resolve().parent
ROOT = HERE.parent
sys.path[:0] = [str(HERE), str(ROOT / "tools")]

import c_counts  # noqa: E402
import packing  # noqa: E402
import paper  # noqa: E402
import served  # noqa: E402

FOUND = "import dzwonolin; print(next(str(place) for place in dzwonolin._places() if place.exists()))"
VERSION = f"import dzwonolin; print(getattr(dzwonolin, '__version__', '{packing.version()}'))"


def said(*command, **more):
    environment = {name: value for name, value in os.environ.items() if name != "DZWONOLIN_LIBRARY"}
    done = subprocess.run(command, capture_output=True, text=True, timeout=120, env={**environment, **more})
    return done.returncode, done.stdout


def exported(library):
    """The names that an ELF file of 64 bits gives others, and its own name."""
    data = library.read_bytes()
    at, size, count = struct.unpack_from("<Q", data, 40)[0], *struct.unpack_from("<HH", data, 58)
    sections = [struct.unpack_from("<IIQQQQIIQQ", data, at + n * size) for n in range(count)]
    symbols, tags = next(s for s in sections if s[1] == 11), next(s for s in sections if s[1] == 6)
    words = sections[symbols[6]][4]

    def word(place):
        return data[words + place:data.index(b"\0", words + place)].decode()
    rows = [struct.unpack_from("<IBBHQQ", data, symbols[4] + at) for at in range(0, symbols[5], 24)]
    entries = [struct.unpack_from("<2Q", data, tags[4] + at) for at in range(0, tags[5], 16)]
    return {word(r[0]) for r in rows if r[3] not in (0, 0xFFF1)}, next(word(value) for tag, value in entries if tag == 14)


def of_install(base, file):
    """What ./install put under a prefix; wrong lines."""
    whole, numbered, short = packing.shared()
    modules = next((base / "lib").glob("python*/*-packages"))
    for path in ("lib/libdzwonolin.a", f"lib/{whole}", "include/dzwonolin.h", "bin/dzwonolin", "share/man/man1/dzwonolin.1"):
        if not (base / path).is_file():
            yield f"not installed: {path}"
    if [os.readlink(base / "lib" / name) for name in (numbered, short)] != [whole, numbered]:
        yield "the links of the shared library are others"
    declared = set(re.findall(r"^uint64_t (dz_\w+)\(", (base / "include" / "dzwonolin.h").read_text(), re.MULTILINE))
    if exported(base / "lib" / short) != (declared, numbered):
        yield f"the shared library exports {exported(base / 'lib' / short)}, the header declares {declared}"
    if said(sys.executable, "-c", FOUND, PYTHONPATH=str(modules)) != (0, f"{base / 'lib' / short}\n"):
        yield "the module does not find the library that it was installed with"
    manual = (base / "share" / "man" / "man1" / "dzwonolin.1").read_text().splitlines()[0]
    if said(sys.executable, "-c", VERSION, PYTHONPATH=str(modules)) != (0, packing.version() + "\n") or packing.version() not in manual:
        yield "the module or the manual page is of another version than the header"
    if shutil.which("pkg-config"):
        line = said("pkg-config", "--cflags", "--libs", "dzwonolin", PKG_CONFIG_PATH=str(base / "lib" / "pkgconfig"))
        if line[1].split() != [f"-I{base}/include", f"-L{base}/lib", "-ldzwonolin"]:
            yield f"pkg-config says {line}"
    program = c_counts.built(served.kit() / "toolchain", base / "lib", base / "include", base, "C", "shared")
    if c_counts.run(base / "lib", program, file) != (0, c_counts.COUNTS_A):
        yield "the example against the installed library says something else"
    status, card = said(sys.executable, str(base / "bin" / "dzwonolin"), "list", str(file))
    if (status, card.encode()) != (0, paper.CARD_A):
        yield f"the installed command says {status}, {card}"


def of_wheel(wheel, folder):
    with zipfile.ZipFile(wheel) as packed:
        packed.extractall(folder)
        record = packed.read(next(name for name in packed.namelist() if name.endswith("/RECORD"))).decode().splitlines()
        for name, kept, size in (line.split(",") for line in record[:-1]):
            digest = base64.urlsafe_b64encode(hashlib.sha256(packed.read(name)).digest()).rstrip(b"=").decode()
            if (f"sha256={digest}", len(packed.read(name))) != (kept, int(size)):
                yield f"the wheel's record of {name} is another"
        if len(packed.namelist()) != len(record):
            yield "the wheel holds what its record does not name"
    if said(sys.executable, "-c", FOUND, PYTHONPATH=str(folder)) != (0, f"{folder / packing.shared()[1]}\n"):
        yield "the module of the wheel does not find the library beside it"


def of_debian(package, base, folder):
    """The same under /usr as under a prefix; asked where dpkg-deb is."""
    if not shutil.which("dpkg-deb"):
        return
    subprocess.run(["dpkg-deb", "-x", package, folder], check=True)
    held = {p.relative_to(folder / "usr").as_posix() for p in folder.rglob("*") if not p.is_dir() or p.is_symlink()}
    wanted = {re.sub(r"^lib/python[^/]*/[^/]*/", "lib/python3/dist-packages/", p.relative_to(base).as_posix())
              for p in base.rglob("*") if (not p.is_dir() or p.is_symlink()) and "counts_" not in p.name and p.name != "counts.o"}
    if held != wanted:
        yield f"the Debian package holds {sorted(held ^ wanted)} more or less"
    if said("dpkg-deb", "-f", str(package), "Version")[1] != packing.version() + "\n":
        yield "the Debian package is of another version"


def wrong():
    with tempfile.TemporaryDirectory() as name:
        scratch = pathlib.Path(name)
        file = scratch / "a.dscalar.nii"
        file.write_bytes(c_counts.nii(paper.CASE_A, [2, 3]))
        base, wheel_folder, debian_folder = scratch / "prefix", scratch / "wheel", scratch / "debian"
        debian_folder.mkdir()
        if said(str(ROOT / "install"), str(base))[0] or said(str(ROOT / "package"), str(scratch))[0]:
            yield "./install or ./package failed"
            return
        wheel, package = next(scratch.glob("*.whl")), next(scratch.glob("*.deb"))
        yield from of_debian(package, base, debian_folder)
        yield from of_install(base, file)
        yield from of_wheel(wheel, wheel_folder)


def main():
    bad = list(wrong())
    print("\n".join(bad) or "what ./install and ./package put is there, and a first call from there is right")
    return 1 if bad else 0


if __name__ == "__main__":
    raise SystemExit(main())
