"""Words for the numbers of refusal: written by tools/reasons from include/dzwonolin.h and docs/REFUSALS.md."""

REASONS = {
    1: "lengths are not 2 or 3, or one is 0 or above 1,048,576",
    2: "text above 16,777,216 bytes",
    3: "no document of the markup grammar writes this text",
    4: "the root is not CIFTI with Version 2; of a GIFTI file: not GIFTI with Version 1.0",
    5: "a map of kind PARCELS",
    6: "an element, attribute, child, named word or non-blank text is not as the format says",
    7: "a number's form, limit or fixed value, or the sixteen of the transformation; a colour outside 0 to 1; "
        "malformed Base64",
    8: "some dimension is not listed exactly once, or a listed one does not exist",
    9: "a map's length is not that of a dimension it applies to; of a GIFTI file: its arrays are not as many as it "
        "says",
    10: "two models of a map share type and structure",
    11: "a model does not list as many numbers as it says, or an index of the map is in no range or in two",
    12: "a vertex or voxel is outside its surface or volume",
    13: "records lent are fewer than all stretches, or work space than the longest; of two sheets: work space than "
        "both counts",
    14: "a vertex twice in a model, or a voxel twice in a map; of two sheets: a location twice in one of them",
    15: "sheet count 0 or above 1,048,576; unpacking: also not a sheet",
    16: "an illegal record",
    17: "the slice to be written is too short",
    18: "map name: no such dimension, it is neither scalars nor labels, or the index is not below its length; keys and "
        "label names: the same of a dimension that is not labels; GIFTI keys: no such array",
    19: "find: no such record; asking a list: no such index or record; label name: no such key",
    20: "a file under 544 bytes; its size field or magic is not NIfTI-2's single file; a data offset below 544",
    21: "a file's dim[0] is not 6 or 7, one of dim[1] to dim[4] is not 1, or one of dim[5] to dim[dim[0]] is below 1",
    22: "the extensions up to a file's data offset are no list, or the data offset lies past its bytes",
    23: "a file has no extension of code 32",
    24: "a key twice in one label table",
    25: "the labels maps together list more than one dimension",
    26: "making a list: a type and structure comes back after another; asking: a bad list",
    29: "a GIFTI array of another encoding, intent or type than ASCII or Base64Binary, NIFTI_INTENT_LABEL, "
        "NIFTI_TYPE_INT32",
    30: "a GIFTI array does not hold as many keys as its Dim0",
    31: "a key of a GIFTI array that no Label of the table has",
}

WHAT_TO_DO = {
    1: "If you typed the lengths, give two or three whole numbers with commas and no blanks, as `2,91282`, in the "
        "header's order: the length of dimension 0 first. If they come from a file, its matrix has a dimension longer "
        "than is read.",
    2: "Look whether the file is a header text at all: a whole .nii file goes in without `--lengths`. Nothing longer "
        "is read.",
    3: "A tag that is not closed, a bare `&` or `<` and a damaged character are for the sender to mend. Number "
        "references (`&#65;`), a DOCTYPE with `[`, a byte-order mark and UTF-16 are XML but are not read here: have "
        "the header written without them, in UTF-8. A compressed file must be unpacked first.",
    4: "It is a file of another format, or CIFTI-1, which is not read. Convert CIFTI-1 with Workbench: `wb_command "
        "-file-convert -cifti-version-convert`. Workbench writes Version 1 into GIFTI files: save the file anew by "
        "nibabel, with `im.version = \"1.0\"` (README).",
    5: "Nothing is wrong with the file. Maps of parcels are not read by this library.",
    6: "An element, or an attribute, child or word in it, is misspelt, missing or too many. The sender's program must "
        "write it as CIFTI-2 says. Of GIFTI label files README tells which are read, and how others become such files.",
    7: "Look for signs, blanks beside commas, more than seven digits, and a transformation whose last row is not 0 0 "
        "0 1. The sender's program must write the number as CIFTI-2 says. Base64 is malformed where a letter is of "
        "another alphabet, where padding is missing, too much or followed by more, and where the bits that are left "
        "over are not 0. Colours of more than 15 digits are to be rounded (README).",
    8: "Each dimension of the matrix needs exactly one map. Look at AppliesToMatrixDimension of the maps, and, if you "
        "typed the lengths, whether there are as many as the matrix has.",
    9: "The header and the matrix do not belong together, or the lengths were typed in the wrong order. Of a GIFTI "
        "file: arrays were added or lost, and NumberOfDataArrays was kept.",
    10: "A structure stands twice as a surface, or twice as voxels, in one map. The sender must join the two models, "
        "or name them rightly.",
    11: "Do not use the data: its rows may belong to other places than they seem to. The sender's program must give "
        "each index of the map one model, and each model as many locations as it says.",
    12: "A vertex number counts from 0 and is below SurfaceNumberOfVertices; a voxel's three numbers are below "
        "VolumeDimensions. Often the numbers were counted from 1, or belong to a surface of another resolution.",
    13: "Lend more room: as many records as the sum of the lengths, and as much work space as the largest, is always "
        "enough.",
    14: "One place has two rows of data. The sender must say which one is meant. Comparing sheets: look for the "
        "location that stands twice in one of them.",
    15: "Look whether the bytes are a whole sheet: a byte 7 or 5, three bytes of count, then as many bytes a record. A "
        "cut copy is the usual cause.",
    16: "The numbers were changed, or are records of an older library, which had 40 bits: keep tables as sheets, and "
        "unpack those.",
    17: "Lend a longer slice: 4 bytes and 7 for each record to pack, a place for each record to unpack, 64 models for "
        "a list.",
    18: "Ask along the dimension of the named maps, usually 0, with an index below its length. `dzwonolin counts FILE` "
        "shows the dimensions. Arrays of a GIFTI file are counted from 0; `dzwonolin labels FILE` shows them all.",
    19: "The location is not in this table. Nothing is wrong with it: ask another, or look whether structure and type "
        "are those meant.",
    20: "It is no CIFTI-2 file: look whether it is compressed (.nii.gz), an older NIfTI-1 volume, or a header text, "
        "which needs `--lengths`.",
    21: "It is a NIfTI-2 file that holds no CIFTI matrix, as a plain volume is. Ask the sender for the file named "
        ".dscalar.nii, .dtseries.nii or the like.",
    22: "The file is cut off, or was damaged on its way. Fetch it again and compare its size with the sender's.",
    23: "The file carries no CIFTI header, perhaps since a program that does not know CIFTI wrote it anew. Ask for the "
        "original.",
    24: "Two Labels of one map have the same Key, however it is written (`5` and `05` are one). The sender must say "
        "which name and colour the key has.",
    25: "A matrix has labels along one dimension alone. Ask the sender what the other dimension is.",
    26: "Make the list from the records of one brain map's stretch, as they were read; and ask with the list as it was "
        "made.",
    29: "The file is no label file, or its arrays are packed by zlib, which is not read. Save it anew with arrays of "
        "Base64Binary: by `gifti_tool -infile A.gii -write_gifti B.gii -encoding BASE64`, or by nibabel (README).",
    30: "Do not use the data: keys are missing or too many, so they may belong to other vertices than they seem to. "
        "The sender must send the file again.",
    31: "The array uses a key that the table of labels lacks, often 0 for what has no label. The sender must add a "
        "Label for it, or say which one is meant.",
}
