"""The small CIFTI-2 files, and the GIFTI label file, under examples/, which documents and tests read.

    python3 tests/stations.py            writes them
`station` is a good file. `nineteen_days` has the same counts, and the right cortex's vertices started again from 0: for nineteen days
the counts on the wall were right and the answers wrong.
"""
import pathlib
import struct

FOLDER = pathlib.Path(__file__).resolve().parent.parent / "examples"
LENGTHS = [2, 9]
TEXT = b"""<?xml version="1.0" encoding="UTF-8"?>
<CIFTI Version="2">
  <Matrix>
    <MatrixIndicesMap AppliesToMatrixDimension="0" IndicesMapToDataType="CIFTI_INDEX_TYPE_SCALARS">
      <NamedMap><MapName>thickness</MapName></NamedMap>
      <NamedMap><MapName>curvature</MapName></NamedMap>
    </MatrixIndicesMap>
    <MatrixIndicesMap AppliesToMatrixDimension="1" IndicesMapToDataType="CIFTI_INDEX_TYPE_BRAIN_MODELS">
      <Volume VolumeDimensions="8,8,8">
        <TransformationMatrixVoxelIndicesIJKtoXYZ MeterExponent="-3">
          -2 0 0 90  0 2 0 -126  0 0 2 -72  0 0 0 1
        </TransformationMatrixVoxelIndicesIJKtoXYZ>
      </Volume>
      <BrainModel IndexOffset="0" IndexCount="4" ModelType="CIFTI_MODEL_TYPE_SURFACE"
                  BrainStructure="CIFTI_STRUCTURE_CORTEX_LEFT" SurfaceNumberOfVertices="12">
        <VertexIndices>0 1 5 11</VertexIndices>
      </BrainModel>
      <BrainModel IndexOffset="4" IndexCount="3" ModelType="CIFTI_MODEL_TYPE_SURFACE"
                  BrainStructure="CIFTI_STRUCTURE_CORTEX_RIGHT" SurfaceNumberOfVertices="12">
        <VertexIndices>3 4 10</VertexIndices>
      </BrainModel>
      <BrainModel IndexOffset="7" IndexCount="2" ModelType="CIFTI_MODEL_TYPE_VOXELS" BrainStructure="CIFTI_STRUCTURE_BRAIN_STEM">
        <VoxelIndicesIJK>
          2 3 5
          2 3 6
        </VoxelIndicesIJK>
      </BrainModel>
    </MatrixIndicesMap>
  </Matrix>
</CIFTI>
"""
LABELS = b"""<?xml version="1.0" encoding="UTF-8"?>
<!DOCTYPE GIFTI SYSTEM "http://www.nitrc.org/frs/download.php/115/gifti.dtd">
<GIFTI Version="1.0" NumberOfDataArrays="1">
  <MetaData>
    <MD><Name><![CDATA[AnatomicalStructurePrimary]]></Name><Value><![CDATA[CortexLeft]]></Value></MD>
  </MetaData>
  <LabelTable>
    <Label Key="0" Red="0" Green="0" Blue="0" Alpha="0"><![CDATA[???]]></Label>
    <Label Key="1" Red="0.78" Green="0.23" Blue="0.12" Alpha="1"><![CDATA[bankssts]]></Label>
    <Label Key="5" Red="0.86" Green="0.08" Blue="0.39" Alpha="1"><![CDATA[cuneus]]></Label>
  </LabelTable>
  <DataArray Intent="NIFTI_INTENT_LABEL" DataType="NIFTI_TYPE_INT32" ArrayIndexingOrder="RowMajorOrder"
             Dimensionality="1" Dim0="12" Encoding="ASCII" Endian="LittleEndian" ExternalFileName="" ExternalFileOffset="">
    <MetaData/>
    <Data>0 0 1 1 5 5 5 1 0 0 5 5</Data>
  </DataArray>
</GIFTI>
"""


def nii(text, lengths=LENGTHS, order="<"):
    """A NIfTI-2 file with this header text, and a matrix of zeros."""
    body = text + bytes(-(len(text) + 8) % 16)
    offset = 544 + 8 + len(body)
    dims = [4 + len(lengths), 1, 1, 1, 1, *lengths]
    header = bytearray(540)
    struct.pack_into(order + "i8shh", header, 0, 540, b"n+2\0\r\n\x1a\n", 16, 32)
    struct.pack_into(order + "8q", header, 16, *dims, *[1] * (8 - len(dims)))
    struct.pack_into(order + "q2d", header, 168, offset, 1.0, 0.0)
    struct.pack_into(order + "8d", header, 104, *[1.0] * 8)
    struct.pack_into(order + "i", header, 504, 3006)
    matrix = bytes(4)
    for length in lengths:
        matrix *= length
    return bytes(header) + b"\1\0\0\0" + struct.pack(order + "2i", 8 + len(body), 32) + body + matrix


def changed(old, new):
    assert TEXT.count(old) == 1
    return TEXT.replace(old, new)


FILES = {
    "station.dscalar.nii": nii(TEXT),
    "nineteen_days.dscalar.nii": nii(changed(b">3 4 10<", b">0 1 2<")),
    "misspelt.dscalar.nii": nii(changed(b"STRUCTURE_CORTEX_RIGHT", b"STRUCTURE_CORTEX_RIGTH")),
    "station.label.gii": LABELS,
}

if __name__ == "__main__":
    FOLDER.mkdir(exist_ok=True)
    for name, data in FILES.items():
        (FOLDER / name).write_bytes(data)
