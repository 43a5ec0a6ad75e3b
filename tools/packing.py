"""What is installed, and where: the one table of ./install and ./package."""
import collections
import pathlib
import re

ROOT = pathlib.Path(__file__).resolve().parent.parent
# A file by its path under the prefix: its bytes, or the path that it is a link to, and whether it is a program.
File = collections.namedtuple("File", "path data link program", defaults=(b"", None, False))

PKG_CONFIG = """prefix={prefix}
libdir=${{prefix}}/lib
includedir=${{prefix}}/include

Name: dzwonolin
Description: a proved reader of CIFTI-2 headers
Version: {version}
Libs: -L${{libdir}} -ldzwonolin
Cflags: -I${{includedir}}
"""
LAUNCHER = """#!/usr/bin/env python3
import pathlib
import sys

sys.path.insert(0, str(pathlib.Path(__file__).resolve().parent.parent / "{modules}"))

from {command} import {function}  # noqa: E402

{call}
"""


def version():
    return re.search(r'#define DZ_VERSION "([0-9.]+)"', (ROOT / "include" / "dzwonolin.h").read_text())[1]


def shared():
    """The names of the shared library, from the file to the shortest link."""
    whole = f"libdzwonolin.so.{version()}"
    return [whole, f"libdzwonolin.so.{version().partition('.')[0]}", "libdzwonolin.so"]


def built():
    """Whether ./library has built what is installed."""
    return all((ROOT / "target" / name).exists() for name in ("libdzwonolin.a", shared()[0]))


def modules():
    return sorted((ROOT / "python").glob("*.py"))


def entry():
    """The module of the command, its function, and the call of it."""
    if (ROOT / "python" / "dzwonolin_command.py").exists():
        return "dzwonolin_command", "script", "script()"
    return "dzwonolin", "main", "sys.exit(main(sys.argv[1:]))"


def tree(prefix, folder):
    """All that is installed under a prefix, its Python modules in this folder of it."""
    target, (whole, numbered, short) = ROOT / "target", shared()
    command, function, call = entry()
    yield File("lib/libdzwonolin.a", (target / "libdzwonolin.a").read_bytes())
    yield File(f"lib/{whole}", (target / whole).read_bytes())
    yield File(f"lib/{numbered}", link=whole)
    yield File(f"lib/{short}", link=numbered)
    yield File("lib/pkgconfig/dzwonolin.pc", PKG_CONFIG.format(prefix=prefix, version=version()).encode())
    yield File("include/dzwonolin.h", (ROOT / "include" / "dzwonolin.h").read_bytes())
    for module in modules():
        yield File(f"{folder}/{module.name}", module.read_bytes())
    yield File("bin/dzwonolin", LAUNCHER.format(modules=folder, command=command, function=function, call=call).encode(), program=True)
    yield File("share/man/man1/dzwonolin.1", (ROOT / "docs" / "dzwonolin.1").read_bytes())
    yield File("share/doc/dzwonolin/counts.c", (ROOT / "examples" / "c" / "counts.c").read_bytes())
