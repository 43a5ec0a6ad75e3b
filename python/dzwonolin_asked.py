"""The commands `why` and `compare`."""
from __future__ import annotations

import json
import os
import sys
import textwrap

import dzwonolin
import dzwonolin_command as command
import dzwonolin_why
from dzwonolin_reasons import REASONS, WHAT_TO_DO
from dzwonolin_slices import TEXT_LIMIT, streamed

NOT_PROVED = "This explanation is by an independent reading that is tested and not proved."
DIFFER = "The two readings differ: the proved library says {}, the independent reading {}. Please report this, with the file."


# ------------------------------------------------------------------------- why

def wrapped(line: str) -> list[str]:
    """A line for people, as several that fit a terminal."""
    indent = " " * (len(line) - len(line.lstrip()) + 4)
    return textwrap.wrap(line, 100, subsequent_indent=indent, break_long_words=False, break_on_hyphens=False)


def why_number(number: int, given) -> int:
    if number not in REASONS:
        command.told(f"{number} is no number of refusal: they are {', '.join(map(str, REASONS))}")
        return command.USAGE
    if given.json:
        print(json.dumps({"number": number, "reason": REASONS[number], "what_to_do": WHAT_TO_DO[number]}))
    elif given.tsv:
        print("number\treason\twhat_to_do", f"{number}\t{REASONS[number]}\t{WHAT_TO_DO[number]}", sep="\n")
    else:
        print(f"refused {number}: {REASONS[number]}", *wrapped(f"what to do: {WHAT_TO_DO[number]}"), sep="\n")
    return command.FINE


def library_number(data, lengths) -> int:
    try:
        dzwonolin.open(data, lengths)
        return 0
    except dzwonolin.Refused as refused:
        return refused.number


def place_words(spot, text: bytes, what: str) -> str:
    """Where a spot is: its line and column in the text, or its byte in the file."""
    if spot.place is None:
        return ""
    if not text:
        return f"byte {spot.place} of the file: "
    return "line {}, column {} of the {}: ".format(*dzwonolin_why.line_and_column(text, spot.place), what)


def spot_fields(spot, text: bytes) -> dict:
    line, column = dzwonolin_why.line_and_column(text, spot.place) if text and spot.place is not None else (None, None)
    return {"line": line, "column": column, "place": spot.place, "path": spot.path, "words": spot.words}


def why_lines(number: int, reading: int, spots: list, text: bytes, what: str):
    if number != reading:
        yield DIFFER.format(number or "accepted", reading or "accepted")
    if not number:
        yield "accepted: no rule is broken"
        return
    yield f"refused {number}: {REASONS[number]}"
    for spot in spots[:dzwonolin_why.MOST]:
        yield from wrapped(f"  {place_words(spot, text, what)}{spot.path + ': ' if spot.path else ''}{command.shown(spot.words)}")
    if len(spots) > dzwonolin_why.MOST:
        yield f"  and {len(spots) - dzwonolin_why.MOST} more"
    yield from wrapped(f"what to do: {WHAT_TO_DO[number]}")
    yield NOT_PROVED


def why_rows(number: int, reading: int, spots: list, text: bytes, _: str):
    yield "number\treading\tline\tcolumn\tpath\twords"
    for spot in spots or [dzwonolin_why.Spot(None, None, "")]:
        fields = spot_fields(spot, text)
        cells = (number, reading, fields["line"], fields["column"], fields["path"], fields["words"])
        yield "\t".join("" if cell is None else command.shown(str(cell)) for cell in cells)


def why_data(name: str, data, given) -> int:
    if given.lengths is None:
        return why_told(name, library_number(data, None), *dzwonolin_why.explained_file(data), given)
    text = bytes(data[:TEXT_LIMIT + 1])
    return why_told(name, library_number(data, given.lengths), *dzwonolin_why.explained(text, given.lengths), text, given)


def why_labels(name: str, data, given) -> int:
    """Of a GIFTI label file."""
    import dzwonolin_why_labels
    text = bytes(data[:TEXT_LIMIT + 1])
    return why_told(name, dzwonolin.gifti_keys(data, 0)[0], *dzwonolin_why_labels.explained(text), text, given, "text")


def why_told(name: str, number: int, reading: int, spots: list, text: bytes, given, what: str = "header text") -> int:
    if given.json:
        print(json.dumps({"file": name, "number": number, "reason": dzwonolin.reason(number), "independent_reading": reading,
                          "spots": [spot_fields(spot, text) for spot in spots], "proved": False}, ensure_ascii=False))
    else:
        lines = why_rows if given.tsv else why_lines
        sys.stdout.writelines(line + "\n" for line in lines(number, reading, spots, text, what))
    return command.DIFFERENT if number or number != reading else command.FINE


def why(given) -> int:
    about = given.about
    if about.isdigit() and not os.path.exists(about):
        return why_number(int(about), given)
    dzwonolin._library()
    try:
        if about == "-":
            return why_data("standard input", streamed(sys.stdin.buffer, given.lengths is not None), given)
        with dzwonolin._Lent(about, text=given.lengths is not None, path=True) as lent:
            of_labels = given.lengths is None and dzwonolin_why.is_gifti(bytes(lent.file[:600]))
            return (why_labels if of_labels else why_data)(about, lent.file, given)
    except dzwonolin.NoLibrary:
        raise
    except OSError as error:
        command.told(command.wrong_with(about, error))
        return command.NOT_ASKED


# --------------------------------------------------------------------- compare

def sheet_of(path: str, lengths) -> bytes:
    """The sheet of a file: of its brain map, or the file itself where it is a sheet."""
    with open(path, "rb") as stream:
        if lengths is None and stream.read(1) in (b"\5", b"\7"):
            stream.seek(0)
            return stream.read()
    return dzwonolin.open(path, lengths).sheet()


COUNTS = ("same", "moved", "first", "second")


def differing(old: bytes, new: bytes):
    """A line for each location that is not the same, where the module tells them."""
    return dzwonolin.changes(old, new) if hasattr(dzwonolin, "changes") else ()


def compared(given) -> int:
    old, new = (sheet_of(path, given.lengths) for path in given.files)
    number, *counts = list(dzwonolin.compare(old, new))[:5]
    if number:
        raise dzwonolin.Refused(number, ", ".join(given.files))
    if given.json:
        told = dict(zip(COUNTS, counts), changes=list(differing(old, new)))
        print(json.dumps({"files": given.files, "number": 0, **told}, ensure_ascii=False))
    elif given.tsv:
        print("\t".join(COUNTS), "\t".join(map(str, counts)), sep="\n")
    else:
        print(" ".join(f"{name} {count}" for name, count in zip(COUNTS, counts)))
        sys.stdout.writelines(line + "\n" for line in differing(old, new))
    return command.DIFFERENT if any(counts[1:]) else command.FINE


def compare(given) -> int:
    try:
        return compared(given)
    except dzwonolin.Refused as refused:
        if not (given.json or given.tsv):
            print(f"refused {refused.number}")
        command.told(refused)
        return command.DIFFERENT
    except ValueError as wrong:
        command.told(f"{', '.join(given.files)}: {wrong}")
    except dzwonolin.NoLibrary:
        raise
    except OSError as error:
        command.told(command.wrong_with(error.filename or given.files[0], error))
    return command.NOT_ASKED
