"""The paper's own examples: Case A, its sheet, the table P1 to P11 and the run-only cases.

    python3 tests/paper.py            held to by the library, and by the oracle
`rows()` gives each as (name, text, lengths, records room, work room, number).
"""
import contextlib
import io
import pathlib
import struct
import sys
import tempfile

HERE = pathlib.Path(__file__).resolve().parent
sys.path[:0] = [str(HERE), str(HERE.parent / "python")]

CASE_A = (
    b'<CIFTI Version="2"><Matrix><MatrixIndicesMap AppliesToMatrixDimension="1" '
    b'IndicesMapToDataType="CIFTI_INDEX_TYPE_BRAIN_MODELS"><Volume VolumeDimensions="8,8,8">'
    b'<TransformationMatrixVoxelIndicesIJKtoXYZ MeterExponent="-3">1 0 0 0 0 1 0 0 0 0 1 0 0 0 0 1'
    b'</TransformationMatrixVoxelIndicesIJKtoXYZ></Volume><BrainModel IndexOffset="2" IndexCount="1" '
    b'ModelType="CIFTI_MODEL_TYPE_VOXELS" BrainStructure="CIFTI_STRUCTURE_BRAIN_STEM">'
    b'<VoxelIndicesIJK>2 3 5</VoxelIndicesIJK></BrainModel><BrainModel IndexOffset="0" IndexCount="2" '
    b'ModelType="CIFTI_MODEL_TYPE_SURFACE" BrainStructure="CIFTI_STRUCTURE_CORTEX_RIGHT" '
    b'SurfaceNumberOfVertices="5"><VertexIndices>4 1</VertexIndices></BrainModel></MatrixIndicesMap>'
    b'<MatrixIndicesMap AppliesToMatrixDimension="0" IndicesMapToDataType="CIFTI_INDEX_TYPE_SCALARS">'
    b'<NamedMap><MapName>a</MapName></NamedMap><NamedMap><MapName>b</MapName></NamedMap>'
    b'</MatrixIndicesMap></Matrix></CIFTI>')
MODELS_A = b"model 0 S 18 CORTEX_RIGHT 2 0\nmodel 0 V 6 BRAIN_STEM 1 2\n"
CARD_A = b"ok\n0 scalars 2\n1 brain 3 0\n0 S 18 4\n1 S 18 1\n2 V 6 2 3 5\n"
SHEET_A = bytes.fromhex("07 00 00 03 48 00 00 00 00 00 10 48 00 00 00 00 00 04 98 00 08 00 0c 00 14")
SHEET_OF_FIVE = bytes.fromhex("05 00 00 03 48 00 00 00 04 48 00 00 00 01 98 01 00 30 05")
# the short list of A, four numbers a model
LIST_A = [0, 2, 0, 18, 2, 1, 1, 6]
# A as a NIfTI-2 file: 540 bytes of header, 4 that say that extensions follow, and one extension of code 32
ROOM_A = 8 + len(CASE_A) + -(8 + len(CASE_A)) % 16
FILE_A = (struct.pack("<i8s4x8q88xq", 540, b"n+2\0\r\n\x1a\n", 6, 1, 1, 1, 1, 2, 3, 0, 544 + ROOM_A).ljust(540, b"\0") + b"\1\0\0\0"
          + struct.pack("<ii", ROOM_A, 32) + CASE_A.ljust(ROOM_A - 8, b"\0"))
RECORDS_A = [18 << 48 | 4, 18 << 48 | 1, 1 << 53 | 6 << 48 | 2 << 32 | 3 << 16 | 5]


def with_a(old, new):
    assert CASE_A.count(old) == 1
    return CASE_A.replace(old, new)


def rows():
    five = with_a(b">4 1<", b">4 4<")
    return [
        ("P1", CASE_A, [2, 3], 3, 3, 0),
        ("P3", b"", [2, 3], 3, 3, 3),
        ("P4", b'<a b="1" b="2"/>', [2, 3], 3, 3, 3),
        ("P6", with_a(b'Offset="2"', b'Offset="1"'), [2, 3], 3, 3, 11),
        ("P7", with_a(b">4 1<", b">5 1<"), [2, 3], 3, 3, 12),
        ("P8", five, [2, 3], 3, 3, 14),
        ("P8 work", five, [2, 3], 3, 2, 13),
        ("P9", with_a(b">4 1<", b">4 -1<"), [2, 3], 3, 3, 7),
        ("P10", CASE_A, [3, 3], 3, 3, 9),
        ("P11", with_a(b'Dimension="1"', b'Dimension="0,1"'), [2, 3], 3, 3, 8),
        ("16 deep", b"<a>" * 16 + b"</a>" * 16, [2, 3], 3, 3, 4),
        ("17 deep", b"<a>" * 17 + b"</a>" * 17, [2, 3], 3, 3, 3),
        ("version 1", CASE_A.replace(b'Version="2">', b'Version="1"><Other/>'), [2, 3], 3, 3, 4),
        ("one record short", CASE_A, [2, 3], 2, 3, 13),
    ]


def by_oracle():
    """What the oracle has wrong."""
    import dzwonolin_oracle as oracle
    for name, text, lengths, records, work, number in rows():
        got = oracle.read(text, lengths, records, work).number
        if got != number:
            yield f"oracle, {name}: wanted {number}, got {got}"
    if oracle.lister(b"2,3\n" + CASE_A) != CARD_A:
        yield "oracle, card of A"
    if oracle.read(CASE_A, [2, 3], 3, 3).records != RECORDS_A:
        yield "oracle, records of A"
    if oracle.pack(RECORDS_A) != (0, SHEET_A) or oracle.unpack(SHEET_A) != (0, RECORDS_A) or oracle.unpack(SHEET_OF_FIVE) != (0, RECORDS_A):
        yield "oracle, P2"
    if oracle.markup.document(b"<a>&amp;lt;</a>").text() != b"&lt;":
        yield "oracle, P5"


def typed(module, word):
    """What the module prints of case A on the command line."""
    with tempfile.NamedTemporaryFile() as file, contextlib.redirect_stdout(io.StringIO()) as printed:
        file.write(CASE_A)
        file.flush()
        module.main([word, file.name, "2,3"])
    return printed.getvalue().encode()


def by_library():
    """What the library has wrong."""
    import dzwonolin
    import served
    served.ready(dzwonolin)
    for name, text, lengths, records, work, number in rows():
        got = dzwonolin.read(text, lengths, records, work).number
        if got != number:
            yield f"library, {name}: wanted {number}, got {got}"
    for word, wanted in (("list", CARD_A), ("card", CARD_A + MODELS_A)):
        if typed(dzwonolin, word) != wanted:
            yield f"library, {word} of A"
    if dzwonolin.read(CASE_A, [2, 3]).records != RECORDS_A:
        yield "library, records of A"
    if dzwonolin.pack(RECORDS_A) != (0, SHEET_A) or {dzwonolin.unpack(s)[1] == RECORDS_A for s in (SHEET_A, SHEET_OF_FIVE)} != {True}:
        yield "library, P2"
    names = [dzwonolin.map_name(CASE_A, [2, 3], 0, n) for n in range(3)]
    if names != [(0, b"a"), (0, b"b"), (18, b"")]:
        yield f"library, names of A: {names}"


def main():
    wrong = list(by_oracle()) + list(by_library())
    print("\n".join(wrong) or f"the paper's {len(rows())} examples, sheet, card and names hold")
    return 1 if wrong else 0


if __name__ == "__main__":
    raise SystemExit(main())
