#!/usr/bin/env python3
"""GIFTI label files of full size, and some that are made to cost much. Standard library only.

    gen_gifti.py NAME OUT.label.gii      prints the number it should give
    gen_gifti.py --list
"""
import base64
import pathlib
import random
import struct
import sys

LIMIT = 16777216
KEYS = 1048576
FRONT = ('<?xml version="1.0" encoding="UTF-8"?>\n<!DOCTYPE GIFTI SYSTEM "http://www.nitrc.org/frs/download.php/115/gifti.dtd">\n'
         '<GIFTI Version="1.0" NumberOfDataArrays="1">\n  <MetaData>\n    <MD><Name><![CDATA[AnatomicalStructurePrimary]]></Name>'
         '<Value><![CDATA[CortexLeft]]></Value></MD>\n  </MetaData>\n')
ARRAY = ('  <DataArray Intent="NIFTI_INTENT_LABEL" DataType="NIFTI_TYPE_INT32" ArrayIndexingOrder="RowMajorOrder" Dimensionality="1" '
         'Dim0="{}" Encoding="{}" Endian="{}" ExternalFileName="" ExternalFileOffset="">\n    <MetaData/>\n    <Data>')
END = "</Data>\n  </DataArray>\n</GIFTI>\n"


def table(keys):
    """A table of labels, as programs write it."""
    rows = (f'    <Label Key="{key}" Red="{n % 7 / 7:.3f}" Green="0" Blue="0.5" Alpha="1"><![CDATA[L_area_{key}]]></Label>\n'
            for n, key in enumerate(keys))
    return "  <LabelTable>\n" + "".join(rows) + "  </LabelTable>\n"


def short_table(keys):
    """The same with short names and no blanks, so that more fit."""
    return "<LabelTable>" + "".join(f'<Label Key="{k}" Red="0" Green="0" Blue="0" Alpha="1"/>' for k in keys) + "</LabelTable>"


def in_runs(labels):
    """Keys as a parcellation has them: neighbours have one label."""
    rng, keys = random.Random(3), []
    while len(keys) < KEYS:
        keys += [rng.randint(1, labels - 1)] * rng.randint(1, 60)
    return keys[:KEYS]


def coded(keys, endian="LittleEndian"):
    return base64.b64encode(struct.pack(f"{'<' if endian == 'LittleEndian' else '>'}{len(keys)}i", *keys)).decode()


def file(head, count, encoding, data, endian="LittleEndian"):
    return (FRONT + head + ARRAY.format(count, encoding, endian) + data + END).encode()


def base64_little():
    return file(table(range(36)), KEYS, "Base64Binary", coded(in_runs(36))), 0


def base64_big():
    return file(table(range(36)), KEYS, "Base64Binary", coded(in_runs(36), "BigEndian"), "BigEndian"), 0


def base64_lines():
    """The letters in lines of 76, as many programs write them."""
    letters = coded(in_runs(36))
    return file(table(range(36)), KEYS, "Base64Binary", "\n".join(letters[at:at + 76] for at in range(0, len(letters), 76))), 0


def ascii_plain():
    return file(table(range(36)), KEYS, "ASCII", "\n".join(map(str, in_runs(36))) + "\n"), 0


def many_labels():
    """120,000 labels of random keys, and keys that come in no runs."""
    rng = random.Random(5)
    known = rng.sample(range(-2 ** 31, 2 ** 31), 120000)
    return file(short_table(known), KEYS, "Base64Binary", coded([rng.choice(known) for _ in range(KEYS)])), 0


def most_labels():
    """As many labels as the text has room for, in no order, and one key."""
    rng = random.Random(6)
    known = rng.sample(range(10 ** 6), (LIMIT - 2000) // len('<Label Key="100000" Red="0" Green="0" Blue="0" Alpha="1"/>'))
    return file(short_table(known), 1, "ASCII", str(known[-1])), 0


def unknown_last():
    """The last key of all is in no Label."""
    return file(table(range(36)), KEYS, "Base64Binary", coded(in_runs(36)[:-1] + [36])), 31


def comments_in_letters():
    """A comment behind every letter."""
    letters = coded([n % 36 for n in range(250000)])
    return file(table(range(36)), 250000, "Base64Binary", "<!---->".join(letters)), 0


def data_round_letters():
    """CDATA round every letter."""
    letters = coded([n % 36 for n in range(200000)])
    return file(table(range(36)), 200000, "Base64Binary", "".join(f"<![CDATA[{letter}]]>" for letter in letters)), 0


TEXTS = [base64_little, base64_big, base64_lines, ascii_plain, many_labels, most_labels, unknown_last, comments_in_letters,
         data_round_letters]


def main():
    by_name = {one.__name__: one for one in TEXTS}
    if sys.argv[1:] == ["--list"]:
        print("\n".join(by_name))
        return
    text, number = by_name[sys.argv[1]]()
    assert len(text) <= LIMIT, len(text)
    pathlib.Path(sys.argv[2]).write_bytes(text)
    print(number)


if __name__ == "__main__":
    main()
