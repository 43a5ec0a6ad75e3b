"""The command `dzwonolin`: the proved library at the desk, on files as they come.

Exit status: 0 all accepted and alike, 1 some refused or different, 2 wrong use, 3 could not ask (no such file, no library).
What is printed of a file stands in dzwonolin_shown; `why` and `compare` in dzwonolin_asked.
"""
from __future__ import annotations

import argparse
import os
import re
import sys

import dzwonolin
from dzwonolin_shown import COMMANDS, Check, Command, Labels, Wall, shown
from dzwonolin_slices import streamed

FINE, DIFFERENT, USAGE, NOT_ASKED = 0, 1, 2, 3


class Progress:
    """How far the work is, on a terminal, where there are many files."""

    def __init__(self, count):
        self.count, self.on = count, count > 1 and sys.stderr.isatty()

    def show(self, number, name):
        if self.on:
            print(f"\r\033[K{number} of {self.count}: {name[-60:]}", end="", file=sys.stderr, flush=True)

    def clear(self):
        if self.on:
            print("\r\033[K", end="", file=sys.stderr, flush=True)


def told(message):
    print(f"dzwonolin: {message}", file=sys.stderr)


def lengths_of(words):
    if not re.fullmatch("[0-9]{1,7}(,[0-9]{1,7})*", words):
        raise argparse.ArgumentTypeError(f"whole numbers with commas and no blanks are asked for, as 2,91282, and not {words!r}")
    return [int(n) for n in words.split(",")]


def files_in(folder):
    """The .nii files in a folder and all below it, in order."""
    for place, folders, names in os.walk(folder):
        folders.sort()
        yield from (os.path.join(place, name) for name in sorted(names) if name.endswith(".nii"))


def inputs(given):
    """Each file that is asked about; a folder's files with -r."""
    for path in given.files:
        if given.recursive and os.path.isdir(path):
            yield from files_in(path)
        else:
            yield path


def opened(path, command, given):
    """The file, a stream where it is -."""
    if path != "-":
        return command.opened(path, given)
    try:
        file = command.opened(streamed(sys.stdin.buffer, command.is_text(given)), given)
    except dzwonolin.Refused as refused:
        raise dzwonolin.Refused(refused.number, "standard input") from None
    file.name = "standard input"
    return file


def wrong_with(path, error):
    """One line on a file that could not be asked about."""
    if isinstance(error, IsADirectoryError):
        return f"{path}: is a folder; -r reads the files in it"
    return f"{path}: {error.strerror or error}"


def hint(path, refused, command, given):
    """What a file looks like that is no NIfTI-2 file, or that is one and was taken for a text."""
    if refused.number not in (2, 3, 20) or not os.path.isfile(path):
        return ""
    import dzwonolin_why as why
    with open(path, "rb") as stream:
        first = stream.read(600)
    if isinstance(command, Labels):
        found = why.NO_LABELS if why.is_file(first) else why.packed(first)
    else:
        found = why.looks_like(first) if given.lengths is None else why.WITHOUT_LENGTHS if why.is_file(first) else ""
    return f" ({found})" if found and (refused.number == 20 or command.is_text(given)) else ""


class Run:
    """One run of a command over its files."""

    def __init__(self, command, given):
        self.command, self.given, self.status = command, given, FINE

    def put(self, line):
        sys.stdout.write(line + "\n")

    def failed(self, status):
        self.status = max(self.status, status)

    def accepted(self, name, file):
        command, given = self.command, self.given
        if given.json:
            import json
            self.put(json.dumps({"file": name, "number": 0, **command.fields(file, given)}, ensure_ascii=False))
        elif given.tsv:
            rows = ((shown(name), *(shown(str(cell)) for cell in row)) for row in command.rows(file, given))
            sys.stdout.writelines("\t".join(row) + "\n" for row in rows)
        else:
            if given.several and not isinstance(command, (Check, Wall)):
                self.put(f"{name}:")
            sys.stdout.writelines(line + "\n" for line in command.plain(file, given))
        if command.differs(file, given):
            self.failed(DIFFERENT)

    def refused(self, path, name, refused):
        lines, loud = self.command.refused(name, refused, self.given)
        if self.given.json:
            import json
            self.put(json.dumps({"file": name, "number": refused.number, "reason": refused.reason}, ensure_ascii=False))
        elif self.given.tsv and isinstance(self.command, Check):
            self.put("\t".join((shown(name), str(refused.number), refused.reason)))
        elif not self.given.tsv:
            sys.stdout.writelines(line + "\n" for line in lines)
        if loud and not self.given.json:
            told(f"{name}: refused {refused.number}: {refused.reason}{hint(path, refused, self.command, self.given)}")
        self.failed(DIFFERENT)

    def not_asked(self, path, error):
        message = wrong_with(path, error)
        if self.given.json:
            import json
            self.put(json.dumps({"file": path, "error": message}, ensure_ascii=False))
        told(message)
        self.failed(NOT_ASKED)

    def one(self, path):
        name = "standard input" if path == "-" else path
        try:
            file = opened(path, self.command, self.given)
            file.name = name
            self.accepted(name, file)
        except dzwonolin.Refused as refused:
            self.refused(path, name, refused)
        except BrokenPipeError:
            raise
        except OSError as error:
            self.not_asked(getattr(error, "filename", None) or path, error)

    def all(self):
        paths = list(inputs(self.given))
        self.given.several = len(paths) > 1 or self.given.recursive
        wrong = self.command.wrong_use(self.given)
        if wrong:
            told(wrong)
            return USAGE
        if self.given.tsv:
            self.put("\t".join(("file", *self.command.heads)))
        progress = Progress(len(paths))
        for number, path in enumerate(paths, 1):
            progress.show(number, path)
            if sys.stdout.isatty():
                progress.clear()
            self.one(path)
        progress.clear()
        if not paths:
            told("no .nii file in " + ", ".join(self.given.files))
            self.failed(NOT_ASKED)
        return self.status


EXTRA = {"why": "dzwonolin why brain.dscalar.nii; dzwonolin why 11", "compare": "dzwonolin compare old.dscalar.nii new.dscalar.nii"}
EPILOG = """
FILE is a CIFTI-2 file (.nii); with --lengths it is the text of a header; - is standard input.
For labels FILE is a GIFTI label file (.label.gii), and for why it may be one.

examples:
{examples}

exit status: 0 all accepted and alike, 1 some refused or different, 2 wrong use, 3 could not ask
(no such file, no library). What each number of refusal means: dzwonolin why NUMBER.
"""


def comparing():
    """Whether the library and the module compare sheets."""
    try:
        return hasattr(dzwonolin, "compare") and dzwonolin.has("dz_compare")
    except dzwonolin.NoLibrary:
        return False


def common(parser, command=Command()):
    command.lengths(parser, lengths_of)
    form = parser.add_mutually_exclusive_group()
    form.add_argument("--json", action="store_true", help="an object for each file, a line each")
    form.add_argument("--tsv", action="store_true", help="a table with tabs, its first line the heads")


def parser_of():
    """The arguments, by the table of commands."""
    raw = argparse.RawDescriptionHelpFormatter
    shown_ones = {name: one.example for name, one in COMMANDS.items()} | EXTRA
    if not comparing():
        del shown_ones["compare"]
    lines = "\n".join("  " + part.strip() for example in shown_ones.values() for part in example.split(";"))
    parser = argparse.ArgumentParser(prog="dzwonolin", description="A proved reader of CIFTI-2 headers, at the desk.",
                                     epilog=EPILOG.format(examples=lines), formatter_class=raw)
    parser.add_argument("--version", action="version", version=f"dzwonolin {dzwonolin.__version__}")
    kinds = parser.add_subparsers(dest="command", metavar="COMMAND", required=True)
    for name, one in COMMANDS.items():
        part = kinds.add_parser(name, help=one.__doc__, description=one.__doc__, formatter_class=raw,
                                epilog="example: " + one.example.replace("; ", "\n         "))
        if one.many:
            part.add_argument("files", metavar="FILE", nargs="+")
            part.add_argument("-r", "--recursive", action="store_true", help="FILE may be a folder: all .nii files in it")
        else:
            part.add_argument("files", metavar="FILE", nargs=1)
            part.set_defaults(recursive=False)
        one.arguments(part)
        common(part, one)
    words = "why a file is refused, and where; or the words for a number"
    part = kinds.add_parser("why", help=words, description=words, formatter_class=raw,
                            epilog="example: " + EXTRA["why"].replace("; ", "\n         "))
    part.add_argument("about", metavar="FILE|NUMBER")
    common(part)
    if comparing():
        words = "how many locations are the same, moved, or in one file only"
        part = kinds.add_parser("compare", help=words, description=words, formatter_class=raw, epilog="example: " + EXTRA["compare"])
        part.add_argument("files", metavar="FILE", nargs=2, help="a .nii file, or a sheet")
        common(part)
    return parser


def main(arguments) -> int:
    try:
        given = parser_of().parse_args(arguments)
    except SystemExit as ended:
        return ended.code if isinstance(ended.code, int) else USAGE
    try:
        if given.command in COMMANDS:
            dzwonolin._library()
            return Run(COMMANDS[given.command], given).all()
        import dzwonolin_asked
        return getattr(dzwonolin_asked, given.command)(given)
    except dzwonolin.NoLibrary as missing:
        told(missing)
        return NOT_ASKED


def script():
    """The command as a program: a closed pipe and an interrupt end it quietly."""
    import signal
    signal.signal(signal.SIGPIPE, signal.SIG_DFL)
    signal.signal(signal.SIGINT, signal.SIG_DFL)
    sys.stdout.reconfigure(errors="surrogateescape")
    sys.exit(main(sys.argv[1:]))


if __name__ == "__main__":
    script()
