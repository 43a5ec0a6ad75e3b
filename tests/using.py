"""docs/USING.md is run: every command gives what the page shows, every Python example too, and the C program is compiled and run.

    python3 tests/using.py            the last line says how many commands were run
A command is a line that begins with `$ `; what it prints stands below it, standard output first.
"""
import contextlib
import doctest
import io
import os
import pathlib
import shlex
import shutil
import subprocess
import sys
import tempfile

HERE = pathlib.Path(__file__).resolve().parent
ROOT = HERE.parent
sys.path[:0] = [str(HERE), str(ROOT / "python")]

import dzwonolin  # noqa: E402
import served  # noqa: E402
from users_asked import asked  # noqa: E402

PAGE = ROOT / "docs" / "USING.md"


def blocks():
    """The indented blocks of the page, without their indent."""
    block = []
    for line in PAGE.read_text().splitlines() + ["end"]:
        if line.startswith("    ") or (not line and block):
            block.append(line[4:])
        elif block:
            yield "\n".join(block).strip("\n")
            block = []


def commands():
    """(command, what the page shows below it)."""
    for block in blocks():
        if block.startswith("$ "):
            for part in block[2:].split("\n$ "):
                command, _, output = part.partition("\n")
                yield command, output + "\n" if output else ""


class Shell:
    """As much of a shell as the page uses."""

    def __init__(self):
        self.status, self.station = 0, None

    def run(self, command):
        """What a command prints."""
        if command == "echo $?":
            return f"{self.status}\n"
        if command.startswith("cat "):
            return pathlib.Path(command[4:]).read_text()
        if command.startswith("cc "):
            return self.compile()
        command, _, lines = command.partition(" | head -n ")
        command, _, target = command.partition(" > ")
        command, _, source = command.partition(" < ")
        words = shlex.split(command)
        if words[0] == "dzwonolin":
            self.status, out, err = asked(*words[1:])
        else:
            done = subprocess.run(self.station, stdin=open(source, "rb"), capture_output=True, text=True)
            self.status, out, err = done.returncode, done.stdout, done.stderr
        if target:
            pathlib.Path(target).write_text(out)
            out = ""
        return "".join(out.splitlines(True)[:int(lines)] if lines else out) + err

    def compile(self):
        """The program of the page, by the machine's own compiler, or the kit's where it has none."""
        source = next(block for block in blocks() if block.startswith("#include"))
        pathlib.Path("station.c").write_text(source + "\n")
        archive = ROOT / "target" / "libdzwonolin.a"
        self.station = ["./station"]
        if shutil.which("cc"):
            subprocess.run(["cc", "-Wall", "-Wextra", "-Werror", "station.c", "-I", ROOT / "include", archive, "-o", "station"], check=True)
            return ""
        subprocess.run([served.kit() / "toolchain" / "bin" / "clang", served.TARGET, "-O2", "-fPIC", "-ffreestanding", "-Wall", "-Wextra",
                        "-Werror", "-I", HERE / "using_c", "-I", served.PLAIN_C, "-I", ROOT / "include", "-c", "station.c"], check=True)
        served.linked("station", "station.o", archive)
        return ""


def main():
    served.ready(dzwonolin)
    wrong, count = 0, 0
    with tempfile.TemporaryDirectory() as folder:
        shutil.copytree(ROOT / "examples", pathlib.Path(folder) / "examples")
        os.chdir(folder)
        shell = Shell()
        for command, wanted in commands():
            got = shell.run(command)
            count += 1
            if got != wanted:
                wrong += 1
                print(f"$ {command}\nshown:\n{wanted}printed:\n{got}")
        with contextlib.redirect_stdout(io.StringIO()) as told:
            python = doctest.testfile(str(PAGE), module_relative=False)
        if python.failed:
            print(told.getvalue())
        os.chdir(ROOT)
    print(f"docs/USING.md: {count} commands and {python.attempted} lines of Python, {wrong + python.failed} otherwise than shown")
    return 1 if wrong or python.failed or count < 15 or python.attempted < 8 else 0


if __name__ == "__main__":
    sys.exit(main())
