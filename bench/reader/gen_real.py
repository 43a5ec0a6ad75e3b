#!/usr/bin/env python3
"""Headers of real size and layout. Standard library only.

    gen_real.py PRESET [--map series|scalars|labels] [--points N] [--shuffle] OUT.xml

    small      about 900 locations
    1x         the standard layout of 91,282 locations, as most files of the field have it
    maxrec     the same layout with 1,048,576 locations
    maxbytes   1,048,576 voxels with four-digit numbers, padded to 16,777,216 bytes exactly

`--shuffle` puts the models out of order. The lengths of the matrix are printed.
"""
import argparse
import math
import pathlib
import random

STANDARD = 91282
LIMIT_RECORDS = 1048576
LIMIT_BYTES = 16777216
LABELS = 361

# name, voxels in the standard layout, centre in 91 x 109 x 91, relative radii
VOXEL_MODELS = [
    ("ACCUMBENS_LEFT", 135, (49.5, 69, 32.5), (1, 1.1, .9)), ("ACCUMBENS_RIGHT", 140, (40.5, 69, 32.5), (1, 1.1, .9)),
    ("AMYGDALA_LEFT", 315, (56.5, 60.5, 27), (1, 1, 1)), ("AMYGDALA_RIGHT", 332, (33.5, 60.5, 27), (1, 1, 1)),
    ("BRAIN_STEM", 3472, (45, 47.5, 19), (.8, .9, 1.6)),
    ("CAUDATE_LEFT", 728, (51.5, 68, 41), (.7, 1.4, 1.1)), ("CAUDATE_RIGHT", 755, (38.5, 68, 41), (.7, 1.4, 1.1)),
    ("CEREBELLUM_LEFT", 8709, (57, 31.5, 19), (1.1, 1.1, .9)), ("CEREBELLUM_RIGHT", 9144, (33, 31.5, 19), (1.1, 1.1, .9)),
    ("DIENCEPHALON_VENTRAL_LEFT", 706, (50, 55, 31), (1, 1, 1)), ("DIENCEPHALON_VENTRAL_RIGHT", 712, (40, 55, 31), (1, 1, 1)),
    ("HIPPOCAMPUS_LEFT", 764, (58, 52, 29), (.8, 1.6, .9)), ("HIPPOCAMPUS_RIGHT", 795, (32, 52, 29), (.8, 1.6, .9)),
    ("PALLIDUM_LEFT", 297, (54.5, 61, 35.5), (.8, 1.2, 1)), ("PALLIDUM_RIGHT", 260, (35.5, 61, 35.5), (.8, 1.2, 1)),
    ("PUTAMEN_LEFT", 1060, (58, 63.5, 36), (.7, 1.5, 1.2)), ("PUTAMEN_RIGHT", 1010, (32, 63.5, 36), (.7, 1.5, 1.2)),
    ("THALAMUS_LEFT", 1288, (50.5, 53.5, 39.5), (1, 1.3, 1)), ("THALAMUS_RIGHT", 1248, (39.5, 53.5, 39.5), (1, 1.3, 1)),
]
SURFACE_MODELS = [("CORTEX_LEFT", 29696), ("CORTEX_RIGHT", 29716)]
SURFACE = 32492
VOXELS = sum(m[1] for m in VOXEL_MODELS)


def wall(count, total, rng):
    """`count` ascending vertex numbers below `total`; the others are left out in runs."""
    out, left = bytearray(total), total - count
    while left:
        run = min(left, rng.randint(1, 40))
        at = rng.randrange(total - run)
        for vertex in range(at, at + run):
            if not out[vertex]:
                out[vertex] = 1
                left -= 1
    return [vertex for vertex in range(total) if not out[vertex]]


def blob(count, centre, radii, axes, taken):
    """The `count` voxels nearest to the centre that are not taken yet, i fastest."""
    reach = (3 * count / (4 * math.pi * radii[0] * radii[1] * radii[2])) ** (1 / 3)
    slack = 1.35
    while True:
        low = [max(0, int(c - reach * r * slack)) for c, r in zip(centre, radii)]
        high = [min(d - 1, int(c + reach * r * slack) + 1) for c, r, d in zip(centre, radii, axes)]
        near = []
        for k in range(low[2], high[2] + 1):
            far_k = ((k - centre[2]) / radii[2]) ** 2
            for j in range(low[1], high[1] + 1):
                far_jk = far_k + ((j - centre[1]) / radii[1]) ** 2
                for i in range(low[0], high[0] + 1):
                    if (k, j, i) not in taken:
                        near.append((far_jk + ((i - centre[0]) / radii[0]) ** 2, k, j, i))
        if len(near) >= count:
            near.sort()
            got = sorted(n[1:] for n in near[:count])
            taken.update(got)
            return [(i, j, k) for k, j, i in got]
        slack *= 1.3


def share(counts, total):
    """The counts scaled to sum to the total exactly."""
    whole = sum(counts)
    parts = [c * total // whole for c in counts]
    by_remainder = sorted(range(len(counts)), key=lambda n: -(counts[n] * total % whole))
    for n in by_remainder[:total - sum(parts)]:
        parts[n] += 1
    return parts


def layout(records, surfaces=True, moved=0, axes=None):
    """(axes of the volume, models as (name, offset, count, vertices or None, numbers))."""
    rng = random.Random(1)
    names = (SURFACE_MODELS if surfaces else []) + [m[:2] for m in VOXEL_MODELS]
    counts = share([c for _, c in names], records)
    factor = records / (STANDARD if surfaces else VOXELS)
    edge = factor ** (1 / 3)
    if axes is None:
        axes = (91, 109, 91) if factor == 1 else tuple(math.ceil(d * edge) + 1 for d in (91, 109, 91))
    models, at, taken = [], 0, set()
    for (name, _), count in zip(names, counts):
        if name.startswith("CORTEX"):
            total = math.ceil(SURFACE * factor)
            models.append((name, at, count, total, wall(count, total, rng)))
        else:
            _, _, centre, radii = next(m for m in VOXEL_MODELS if m[0] == name)
            models.append((name, at, count, None, blob(count, [x * edge + moved for x in centre], radii, axes, taken)))
        at += count
    return axes, models


def label_table():
    """A table of 361 labels, as an atlas of 180 areas a side has it."""
    colour = random.Random(3)
    labels = "".join('          <Label Key="%d" Red="%.6f" Green="%.6f" Blue="%.6f" Alpha="1">L_area_%d_ROI</Label>\n'
                     % (key, colour.random(), colour.random(), colour.random(), key) for key in range(1, LABELS))
    return ('        <LabelTable>\n          <Label Key="0" Red="1" Green="1" Blue="1" Alpha="0">???</Label>\n'
            + labels + "        </LabelTable>\n")


def first_map(kind, points):
    start = '    <MatrixIndicesMap AppliesToMatrixDimension="0" IndicesMapToDataType="CIFTI_INDEX_TYPE_'
    if kind == "series":
        return start + (f'SERIES" NumberOfSeriesPoints="{points}" SeriesExponent="0" SeriesStart="0.0" '
                        'SeriesStep="0.72" SeriesUnit="SECOND"/>\n')
    table = label_table() if kind == "labels" else ""
    named = "".join(f"      <NamedMap>\n        <MapName>map &amp; contrast {n + 1}</MapName>\n{table}      </NamedMap>\n"
                    for n in range(points))
    return start + f'{kind.upper()}">\n{named}    </MatrixIndicesMap>\n'


def model_text(name, at, count, vertices, numbers):
    kind = "VOXELS" if vertices is None else "SURFACE"
    surface = "" if vertices is None else f' SurfaceNumberOfVertices="{vertices}"'
    if vertices is None:
        listed = "<VoxelIndicesIJK>" + "".join("%d %d %d\n" % v for v in numbers) + "</VoxelIndicesIJK>"
    else:
        listed = "<VertexIndices>" + " ".join(map(str, numbers)) + "</VertexIndices>"
    return (f'      <BrainModel IndexOffset="{at}" IndexCount="{count}" ModelType="CIFTI_MODEL_TYPE_{kind}" '
            f'BrainStructure="CIFTI_STRUCTURE_{name}"{surface}>\n        {listed}\n      </BrainModel>\n')


def header(axes, models, kind, points, shuffle, length=None):
    """The whole text, padded to `length` by its provenance."""
    volume = ('      <Volume VolumeDimensions="%d,%d,%d">\n        <TransformationMatrixVoxelIndicesIJKtoXYZ MeterExponent="-3">'
              "-2.0 0.0 0.0 90.0\n0.0 2.0 0.0 -126.0\n0.0 0.0 2.0 -72.0\n0.0 0.0 0.0 1.0"
              "</TransformationMatrixVoxelIndicesIJKtoXYZ>\n      </Volume>\n" % tuple(axes))
    models = list(models)
    if shuffle:
        random.Random(2).shuffle(models)
    before = ('<?xml version="1.0" encoding="UTF-8"?>\n<CIFTI Version="2">\n  <Matrix>\n    <MetaData>\n      <MD>\n'
              "        <Name>ParentProvenance</Name>\n        <Value>generated; rest &amp; task &lt;REST1&gt;</Value>\n      </MD>\n"
              "      <MD>\n        <Name>Provenance</Name>\n        <Value>average a.nii b.nii")
    after = ("</Value>\n      </MD>\n    </MetaData>\n" + first_map(kind, points)
             + '    <MatrixIndicesMap AppliesToMatrixDimension="1" IndicesMapToDataType="CIFTI_INDEX_TYPE_BRAIN_MODELS">\n'
             + volume + "".join(model_text(*m) for m in models) + "    </MatrixIndicesMap>\n  </Matrix>\n</CIFTI>\n")
    short = max(0, (length or 0) - len(before) - len(after))
    return (before + (" 100307.dtseries.nii" * (short // 20 + 1))[:short] + after).encode()


def preset(name, kind="series", points=1, shuffle=False):
    """(the text, the lengths of its matrix)."""
    records = {"small": 913, "1x": STANDARD, "maxrec": LIMIT_RECORDS, "maxbytes": LIMIT_RECORDS}[name]
    if name == "maxbytes":
        axes, models = layout(records, surfaces=False, moved=1000, axes=(2048, 2048, 4096))
        text = header(axes, models, kind, points, shuffle, LIMIT_BYTES)
    else:
        text = header(*layout(records), kind, points, shuffle)
    return text, [points, records]


def main():
    options = argparse.ArgumentParser(description=__doc__, formatter_class=argparse.RawDescriptionHelpFormatter)
    options.add_argument("preset", choices=["small", "1x", "maxrec", "maxbytes"])
    options.add_argument("--map", choices=["series", "scalars", "labels"], default="series")
    options.add_argument("--points", type=int, default=1)
    options.add_argument("--shuffle", action="store_true")
    options.add_argument("out")
    given = options.parse_args()
    text, lengths = preset(given.preset, given.map, given.points, given.shuffle)
    pathlib.Path(given.out).write_bytes(text)
    print(",".join(map(str, lengths)))


if __name__ == "__main__":
    main()
