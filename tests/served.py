"""The library that ./library built, as the tests call it: as it is, or in a program of its own.

Where DZWONOLIN_SERVED is 1 in the environment, a small program over the archive (tests/plain_c/serve.c), which the kit builds, runs beside
the tests, and each call of the Python module goes to it and back through a pipe. It puts every slice between two marked stretches, and
it is an error where a call writes past one or into one that is lent for reading.
"""
import ctypes
import os
import pathlib
import struct
import subprocess

HERE = pathlib.Path(__file__).resolve().parent
ROOT = HERE.parent
PLAIN_C = HERE / "plain_c"
TARGET = "--target=x86_64-unknown-linux-gnu"
SHAPES = {"dz_read": "bnNNN", "dz_map_name": "bnvvN", "dz_find": "nvN", "dz_pack": "nBN", "dz_unpack": "bNN",
          "dz_front": "bN", "dz_read_file": "bNNN", "dz_file_map_name": "bvvN",
          "dz_model_list": "nNN", "dz_structure_at": "nvN", "dz_index_of": "nnvN",
          "dz_compare": "bbNN", "dz_tail": "bbNN", "dz_map_names": "bnvNN",
          "dz_label_keys": "bnvvKN", "dz_label_name": "bnvvvN", "dz_gifti_keys": "bvKN"}


def needed():
    return os.environ.get("DZWONOLIN_SERVED") == "1"


def kit():
    """The kit's folder."""
    guide = subprocess.run(["rt", "doc"], check=True, capture_output=True, text=True).stdout.strip()
    return pathlib.Path(guide).parent


def linked(program, *parts):
    """A program of objects and archives, linked by the kit; it runs by itself."""
    subprocess.run([kit() / "bin" / "rattle-link", "--target", "x86_64-unknown-linux-gnu", "--toolchain", kit() / "toolchain", "-o", program,
                    *parts], check=True, capture_output=True)


def build():
    """The program that serves the library."""
    archive = ROOT / "target" / "libdzwonolin.a"
    if not archive.exists():
        raise OSError(f"no {archive}: run ./library")
    folder = ROOT / "target" / "served"
    folder.mkdir(parents=True, exist_ok=True)
    source, compiled, program = PLAIN_C / "serve.c", folder / "serve.o", folder / "serve"
    subprocess.run([kit() / "toolchain" / "bin" / "clang", TARGET, "-O2", "-fPIC", "-ffreestanding", "-I", PLAIN_C, "-I", ROOT / "include",
                    "-c", source, "-o", compiled], check=True)
    linked(program, compiled, archive)
    return program


class Library:
    """Has the functions, each a question to the program."""

    def __init__(self):
        self.server = subprocess.Popen(build(), stdin=subprocess.PIPE, stdout=subprocess.PIPE)
        for number, (name, shape) in enumerate(SHAPES.items()):
            setattr(self, name, lambda *given, number=number, shape=shape: self.ask(number, shape, given))

    def take(self, count):
        got = self.server.stdout.read(count)
        if len(got) < count:
            raise OSError("the program that serves the library ended")
        return got

    def ask(self, number, shape, given):
        given, question, written = list(given), [struct.pack("<Q", number)], []
        for kind in shape:
            one = given.pop(0)
            if kind == "v":
                question.append(struct.pack("<Q", one % (1 << 64)))
                continue
            count = given.pop(0)
            if one is None:  # an empty slice whose pointer is null
                question.append(b"\xff" * 8)
                continue
            size = count if kind in "bB" else (4 if kind == "K" else 8) * count
            question += [struct.pack("<Q", count), bytes(memoryview(one).cast("B")[:size]) if size else b""]
            if kind in "BNK":
                written.append((one, size))
        self.server.stdin.write(b"".join(question))
        self.server.stdin.flush()
        answer, untouched = struct.unpack("<2Q", self.take(16))
        for one, size in written:
            ctypes.memmove(one, self.take(size), size)
        if not untouched:
            raise OSError("a call wrote past a slice, or into one lent for reading")
        return answer


def install(module):
    module._loaded = Library()


def ready(module):
    """Makes the module call the built library: as it is, or in a program of its own."""
    if needed():
        install(module)
    else:
        module._library()
