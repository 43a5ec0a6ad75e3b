"""For every number a question that it refuses and one that passes, asked of the library; first lines are asked of the lister.

    python3 tests/asked.py

The questions on texts are in tests/asked/texts: a text, and then questions, each behind an `@`. Every field is ended by a bar:
    c|asked|lengths|room for records, for work|from|to|     the text with the first `from` made `to`
    t|asked|lengths|room for records, for work|text|        another text
    n|asked|lengths|dimension, index|from|to|               a map's name in the text so changed
    f|asked|first line|1 with a line feed, 1 where more text comes than there is room for|
Files are in tests/asked_files.py, sheets below. The answers are in tests/asked/*.answers.
"""
import ctypes
import pathlib
import subprocess
import sys

HERE = pathlib.Path(__file__).resolve().parent
sys.path[:0] = [str(HERE), str(HERE.parent / "python")]

import asked_files  # noqa: E402
import dzwonolin  # noqa: E402
import served  # noqa: E402
from paper import RECORDS_A, SHEET_A, SHEET_OF_FIVE  # noqa: E402

LISTER = HERE.parent / "target" / "bin" / "lister"
PACKED = [
    ("pack the records of case A", RECORDS_A, 25),
    ("pack none", [], 25),
    ("pack 2^54", [5066549580791812, 1 << 54], 25),
    ("pack a vertex above 1,048,575", [1048576], 25),
    ("pack a record of 40 bits", [309237645316], 25),
    ("pack into 24 bytes", RECORDS_A, 24),
]
UNPACKED = [
    ("unpack the sheet of case A", SHEET_A, 3),
    ("unpack its sheet of five", SHEET_OF_FIVE, 3),
    ("unpack three bytes", b"\7\0\0", 3),
    ("unpack a first byte 6", b"\6\0\0\1" + bytes(6), 3),
    ("unpack one byte more", SHEET_OF_FIVE + b"\0", 3),
    ("unpack a vertex above 1,048,575", b"\7\0\0\1\0\0\0\0\x40\0\0", 1),
    ("unpack it in five bytes", b"\5\0\0\1\0\0\x10\0\0", 1),
    ("unpack an end bit", b"\7\0\0\1\0\0\0\0\0\0\2", 1),
    ("unpack three into two", SHEET_OF_FIVE, 2),
    ("unpack a count of 0", b"\5\0\0\0", 2),
]
FOUND = [("find the second record", RECORDS_A[1]), ("find 7", 7), ("find 2^64 - 1", (1 << 64) - 1)]


def numbers(field):
    return [int(n) for n in field.split(b",")]


def shown(answer):
    return "".join(line + "\n" for line in dzwonolin.card(answer)).encode()


def listed(line, text, fed, more):
    """What the lister prints; too much text is the text and blanks."""
    given = line + b"\n" * fed + (text.ljust(32769) if more else text)
    return subprocess.run(LISTER, input=given, capture_output=True, timeout=60).stdout


def on_texts():
    table = (HERE / "asked" / "texts").read_bytes()
    text = table.split(b"|")[0]
    for question in table.split(b"@")[1:]:
        kind, asked, first, second, *rest = question.split(b"|")
        given = rest[0] if kind == b"t" else text.replace(rest[0], rest[1], 1) if rest[1:] else text
        if kind == b"f":
            answer = listed(first, text, *numbers(second))
        elif kind == b"n":
            number, name = dzwonolin.map_name(given, numbers(first), *numbers(second))
            answer = b"refused %d\n" % number if number else b"'%s'\n" % name
        else:
            answer = shown(dzwonolin.read(given, numbers(first), *numbers(second)))
        yield asked + b": " + answer


def on_files():
    for name, file in asked_files.FILES.items():
        yield name.encode().ljust(32) + b": " + shown(dzwonolin.read_file(file, 8, 8))


def on_sheets():
    count = (ctypes.c_uint64 * 1)()
    for asked, records, room in PACKED:
        lent, sheet = (ctypes.c_uint64 * len(records))(*records), ctypes.create_string_buffer(room)
        number = dzwonolin._library().dz_pack(lent, len(lent), sheet, room, count, 1)
        yield f"{asked}: " + (f"refused {number}\n" if number else f"{sheet.raw.hex()}\n")
    for asked, sheet, room in UNPACKED:
        records = (ctypes.c_uint64 * room)()
        number = dzwonolin._library().dz_unpack(sheet, len(sheet), records, room, count, 1)
        yield f"{asked}: " + (f"refused {number}\n" if number else "".join(f"{r:014x}\n" for r in records))
    for asked, record in FOUND:
        number, place = dzwonolin.find(RECORDS_A, record)
        yield f"{asked}: " + (f"refused {number}\n" if number else f"place {place}\n")


def main():
    served.ready(dzwonolin)
    wrong = asked = 0
    for what, answers in (("texts", on_texts()), ("files", on_files()), ("sheets", (line.encode() for line in on_sheets()))):
        wanted = (HERE / "asked" / f"{what}.answers").read_bytes()
        for answer in answers:
            asked += 1
            if not wanted.startswith(answer):
                wrong += 1
                print(f"{what}: got {answer!r}, wanted {wanted[:len(answer)]!r}")
                break
            wanted = wanted[len(answer):]
        if wanted:
            wrong += 1
            print(f"{what}: not answered: {wanted[:60]!r}")
    print(f"{asked} questions asked, {wrong} wrong")
    return 1 if wrong else 0


if __name__ == "__main__":
    raise SystemExit(main())
