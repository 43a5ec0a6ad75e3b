#!/usr/bin/env python3
"""Texts made to cost much: as long as the limit allows, each aimed at one weak place of a reader.

    gen_hostile.py NAME OUT.xml      prints the lengths to read it with and the number it should give
    gen_hostile.py --list
"""
import pathlib
import random
import sys

LIMIT = 16777216
RECORDS = 1048576
MAP = b'<MatrixIndicesMap AppliesToMatrixDimension="%b" IndicesMapToDataType="CIFTI_INDEX_TYPE_%b">'
FIRST = MAP % (b"0", b"SCALARS") + b"<NamedMap><MapName>a</MapName></NamedMap></MatrixIndicesMap>"
BRAIN = MAP % (b"1", b"BRAIN_MODELS")
MODEL = (b'<BrainModel IndexOffset="%d" IndexCount="%d" ModelType="CIFTI_MODEL_TYPE_%b" '
         b'BrainStructure="CIFTI_STRUCTURE_%b"%b>')
VOLUME = (b'<Volume VolumeDimensions="2048,2048,4096"><TransformationMatrixVoxelIndicesIJKtoXYZ MeterExponent="-3">'
          b"1 0 0 0 0 1 0 0 0 0 1 0 0 0 0 1</TransformationMatrixVoxelIndicesIJKtoXYZ></Volume>")
OPEN, CLOSE = b'<CIFTI Version="2"><Matrix>', b"</Matrix></CIFTI>"


def matrix(inside):
    return OPEN + inside + CLOSE


def brain(inside):
    return matrix(FIRST + BRAIN + inside + b"</MatrixIndicesMap>")


def surface(at, numbers, name=b"CORTEX_LEFT", vertices=RECORDS):
    return (MODEL % (at, len(numbers), b"SURFACE", name, b' SurfaceNumberOfVertices="%d"' % vertices)
            + b"<VertexIndices>" + b" ".join(b"%d" % n for n in numbers) + b"</VertexIndices></BrainModel>")


def voxels(at, numbers, name):
    listed = b" ".join(b"%d %d %d" % (n % 2048, n // 2048 % 2048, n >> 22) for n in numbers)
    return MODEL % (at, len(numbers), b"VOXELS", name, b"") + b"<VoxelIndicesIJK>" + listed + b"</VoxelIndicesIJK></BrainModel>"


def often(piece, used):
    """The piece as often as it fits."""
    return piece * ((LIMIT - used) // len(piece))


def bare_models():
    return brain(often(b"<BrainModel/>", 600)), [1, RECORDS], 6


def alike_models():
    one = MODEL % (0, 1, b"SURFACE", b"CORTEX", b' SurfaceNumberOfVertices="1"') + b"<VertexIndices>0</VertexIndices></BrainModel>"
    models = often(one, 600)
    return brain(models), [1, len(models) // len(one)], 10


def one_tag_of_attributes():
    inside, n = [], 0
    while n < 1500000:
        inside.append(b' a%x=""' % n)
        n += 1
    return b"<CIFTI" + b"".join(inside)[:LIMIT - 20] + b"/>", [1, 1], 3


def tags_of_attributes():
    tag = b"<a" + b"".join(b' %c=""' % c for c in b"abcdefghijklmnop") + b"/>"
    return matrix(often(tag, 100)), [1, 1], 6


def long_names():
    tag = b"<" + b"n" * 64 + b"".join(b' %b=""' % (b"n" * 62 + b"%02d" % n) for n in range(16)) + b"/>"
    return matrix(often(tag, 100)), [1, 1], 6


def comments_between():
    comments = often(b"<!---->", 600)
    return brain(comments + surface(0, [0])), [1, 1], 0


def comments_in_numbers():
    numbers = b"".join(b"%d<!---->%d " % (n // 10, n % 10) for n in range(10, RECORDS - 200))
    count = RECORDS - 210
    return brain(listed(numbers, count)), [1, count], 0


def listed(numbers, count):
    """One surface whose list is written so."""
    return (MODEL % (0, count, b"SURFACE", b"CORTEX", b' SurfaceNumberOfVertices="1048576"') + b"<VertexIndices>" + numbers
            + b"</VertexIndices></BrainModel>")


def numbers_plain():
    """The plain twin of `numbers_in_data`."""
    return brain(listed(b" ".join(b"%d" % n for n in range(RECORDS)), RECORDS)), [1, RECORDS], 0


def numbers_in_data():
    return brain(listed(b"<![CDATA[" + b" ".join(b"%d" % n for n in range(RECORDS)) + b"]]>", RECORDS)), [1, RECORDS], 0


def data_round_digits():
    """CDATA round each digit; a number has one to six of them."""
    many = 210000
    numbers = b" ".join(b"".join(b"<![CDATA[%c]]>" % digit for digit in b"%d" % n) for n in range(many))
    return brain(listed(numbers, many)), [1, many], 0


def empty_data_in_list():
    return brain(listed(often(b"<![CDATA[]]>", 800) + b"0", 1)), [1, 1], 0


def empty_data_between():
    return brain(often(b"<![CDATA[]]>", 800) + surface(0, [0])), [1, 1], 0


def brackets_in_data():
    return matrix(b"<MetaData><MD><Name/><Value><![CDATA[" + often(b"]", 800) + b"]]></Value></MD></MetaData>" + FIRST + BRAIN
                  + surface(0, [0]) + b"</MatrixIndicesMap>"), [1, 1], 0


def references():
    value = often(b"&amp;", 700)
    return matrix(b"<MetaData><MD><Name/><Value>" + value + b"</Value></MD></MetaData>" + FIRST + BRAIN + surface(0, [0])
                  + b"</MatrixIndicesMap>"), [1, 1], 0


def late_repeat_vertices():
    numbers = list(range(RECORDS - 1)) + [0]
    return brain(surface(0, numbers)), [1, RECORDS], 14


def descending_vertices():
    return brain(surface(0, list(range(RECORDS - 1, -1, -1)))), [1, RECORDS], 0


def woven_vertices():
    """The numbers in an order that is far from sorted at many distances."""
    numbers = [n * 524287 % RECORDS for n in range(RECORDS)]
    return brain(surface(0, numbers)), [1, RECORDS], 0


def late_repeat_voxels():
    half = RECORDS // 2
    first, second = list(range(half)), list(range(half, 2 * half - 1)) + [0]
    return brain(VOLUME + voxels(half, second, b"THALAMUS_LEFT") + voxels(0, first, b"BRAIN_STEM")), [1, RECORDS], 14


def late_overlap():
    """Sixteen models, the last two of which overlap; counts and sums are right."""
    names = ("ACCUMBENS_LEFT ACCUMBENS_RIGHT AMYGDALA_LEFT AMYGDALA_RIGHT CAUDATE_LEFT CAUDATE_RIGHT CORTEX_LEFT CORTEX_RIGHT "
             "OTHER CEREBELLUM BRAIN_STEM CORTEX PUTAMEN_LEFT PUTAMEN_RIGHT THALAMUS_LEFT THALAMUS_RIGHT").encode().split()
    each = 65536
    offsets = [n * each for n in range(16)]
    offsets[15] -= 1
    return brain(b"".join(surface(at, list(range(each)), name) for at, name in zip(offsets, names))), [1, RECORDS], 11


def named_maps():
    one = b"<NamedMap><MapName/></NamedMap>"
    names = often(one, 600)
    return matrix(MAP % (b"0", b"SCALARS") + names + b"</MatrixIndicesMap>" + BRAIN + surface(0, [0])
                  + b"</MatrixIndicesMap>"), [len(names) // len(one), 1], 0


def labels(order, keys=None):
    """One table of labels as long as the text allows, with keys from 0 up or the first of those given; `order` puts them in order."""
    start = MAP % (b"0", b"LABELS") + b"<NamedMap><MapName>a</MapName><LabelTable>"
    end = b"</LabelTable></NamedMap></MatrixIndicesMap>" + BRAIN + surface(0, [0]) + b"</MatrixIndicesMap>"
    label, left, used = b'<Label Key="%d" Red="0" Green="0" Blue="0" Alpha="1"/>', LIMIT - len(matrix(start + end)), []
    for key in keys or range(LIMIT):
        left -= len(label % key)
        if left < 0:
            break
        used.append(key)
    order(used)
    return matrix(start + b"".join(label % key for key in used) + end), [1, 1], 0


def labels_rising():
    return labels(list.sort)


def labels_falling():
    return labels(list.reverse)


def labels_random():
    return labels(random.Random(4).shuffle)


def labels_far():
    """Keys so far apart that no small table of marks tells them apart."""
    return labels(list, random.Random(5).sample(range(2147483648), 400000))


def label_tables(each=513):
    """Tables of labels, each one label longer than those that get little room; keys far apart."""
    keys = iter(random.Random(6).sample(range(2147483648), 400000))
    start, end = MAP % (b"0", b"LABELS"), b"</MatrixIndicesMap>" + BRAIN + surface(0, [0]) + b"</MatrixIndicesMap>"
    left, tables = LIMIT - len(matrix(start + end)), []
    while True:
        table = b"".join(b'<Label Key="%d" Red="0" Green="0" Blue="0" Alpha="1"/>' % next(keys) for _ in range(each))
        tables.append(b"<NamedMap><MapName/><LabelTable>" + table + b"</LabelTable></NamedMap>")
        left -= len(tables[-1])
        if left < 0:
            break
    return matrix(start + b"".join(tables[:-1]) + end), [len(tables) - 1, 1], 0


def metadata():
    entries = often(b"<MD><Name/><Value/></MD>", 700)
    return matrix(b"<MetaData>" + entries + b"</MetaData>" + FIRST + BRAIN + surface(0, [0]) + b"</MatrixIndicesMap>"), [1, 1], 0


def maps():
    return matrix(often(FIRST, 100)), [1, 1], 8


def dimensions():
    return matrix(MAP % (often(b"0,", 300) + b"0", b"SCALARS") + b"</MatrixIndicesMap>"), [1, 1], 8


def blanks():
    return brain(MODEL % (0, 1, b"SURFACE", b"CORTEX", b' SurfaceNumberOfVertices="1"') + b"<VertexIndices>"
                 + often(b" \n", 700) + b"0</VertexIndices></BrainModel>"), [1, 1], 0


def open_tags():
    return often(b"<a>", 0), [1, 1], 3


def open_comment():
    return b"<!--" + often(b"a-", 10), [1, 1], 3


def siblings_then_fault():
    return b"<a>" + often(b"<b></b>", 20) + b"</b>", [1, 1], 3


TEXTS = [bare_models, alike_models, one_tag_of_attributes, tags_of_attributes, long_names, comments_between,
         comments_in_numbers, references, late_repeat_vertices, descending_vertices, woven_vertices,
         late_repeat_voxels, late_overlap, named_maps, labels_rising, labels_falling, labels_random, labels_far,
         label_tables, metadata, maps,
         dimensions, blanks, open_tags, open_comment, siblings_then_fault, numbers_plain, numbers_in_data, data_round_digits,
         empty_data_in_list, empty_data_between, brackets_in_data]


def main():
    by_name = {one.__name__: one for one in TEXTS}
    if sys.argv[1:] == ["--list"]:
        print("\n".join(by_name))
        return
    text, lengths, number = by_name[sys.argv[1]]()
    assert len(text) <= LIMIT, len(text)
    pathlib.Path(sys.argv[2]).write_bytes(text)
    print(",".join(map(str, lengths)), number)


if __name__ == "__main__":
    main()
