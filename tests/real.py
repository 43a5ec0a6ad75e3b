"""Real headers: the five files that Debian's libcifti-doc carries, fetched into a temporary folder; and the GIFTI files of python3-nibabel.

    python3 tests/real.py [DIR]      the library against the oracle on each; the texts are kept in DIR

Texts and lengths are taken out of the files by the library, from each file as it is and in the other byte order.
"""
import base64
import pathlib
import random
import re
import struct
import subprocess
import sys
import tempfile
import zlib

PACKAGE, LABELS_PACKAGE = "libcifti-doc", "python3-nibabel"
PARCELLATION = "rh.aparc.annot.gii"
# What these GIFTI files give; the others are no label files of one dimension (6), or Caret's, without keys (6).
NUMBERS = {PARCELLATION: 29, "its arrays unpacked": 31, "a Label more": 0}


def turned(data):
    """The same header and list in the other byte order: the fields that are read, each with its bytes turned round."""
    order = "<" if data[:4] == struct.pack("<i", 540) else ">"
    offset = struct.unpack(order + "q", data[168:176])[0]
    fields = [(0, 4), *((at, 8) for at in range(16, 80, 8)), (168, 8)]
    at = 544
    while data[540] and at < offset:
        fields += [(at, 4), (at + 4, 4)]
        at += struct.unpack(order + "i", data[at:at + 4])[0]
    other = bytearray(data)
    for at, width in fields:
        other[at:at + width] = data[at:at + width][::-1]
    return bytes(other)


def header(path):
    """(the text, the lengths of the matrix) of a NIfTI-2 file, by the library; by its bytes and in the other order the same."""
    import dzwonolin
    data = path.read_bytes()
    front = dzwonolin.front(path)
    if front.number or any(dzwonolin.front(other) != front for other in (data, turned(data))):
        raise ValueError(f"{path.name}: {front}, and otherwise by its bytes or in the other order")
    if dzwonolin.read_file(path) != dzwonolin.read_file(turned(data)):
        raise ValueError(f"{path.name}: read otherwise in the other order")
    return data[front.start:front.start + front.length], front.lengths


def fetched(package, pattern):
    """The files of a Debian package that a pattern names, as paths in a folder that lasts; an OSError says why there are none."""
    folder = tempfile.TemporaryDirectory()
    for step in (["apt-get", "download", package], ["sh", "-c", "dpkg-deb -x *.deb ."]):
        try:
            done = subprocess.run(step, cwd=folder.name, capture_output=True, timeout=60)
        except subprocess.TimeoutExpired:
            raise OSError(step[0] + " took too long") from None
        if done.returncode:
            raise OSError(done.stderr.decode(errors="replace").strip().splitlines()[-1])
    return folder, sorted(pathlib.Path(folder.name).rglob(pattern))


def headers():
    """(file name, text, lengths) of each, or an OSError that says why there are none."""
    folder, files = fetched(PACKAGE, "*.nii")
    with folder:
        return [(f.name, *header(f)) for f in files]


def unpacked(text):
    """A GIFTI file whose arrays of GZipBase64Binary are Base64Binary."""
    def again(found):
        return found[1] + base64.b64encode(zlib.decompress(base64.b64decode(found[2]))) + found[3]
    return re.sub(rb"(<Data>)([^<]*)(</Data>)", again, text).replace(b'"GZipBase64Binary"', b'"Base64Binary"')


def label_files():
    """(file name, text, the number that it gives) of each GIFTI file; of a parcellation also with its arrays unpacked, where it has a
    key that its table lacks, and with a Label for that key."""
    folder, files = fetched(LABELS_PACKAGE, "*.gii")
    with folder:
        texts = {f.name: f.read_bytes() for f in files}
    aparc = unpacked(texts[PARCELLATION])
    texts["its arrays unpacked"] = aparc
    texts["a Label more"] = aparc.replace(b"<LabelTable>", b'<LabelTable><Label Key="0" Red="0" Green="0" Blue="0" Alpha="0"/>')
    return [(name, text, NUMBERS.get(name, 6)) for name, text in texts.items()]


def or_skipped(what, found):
    """What is found, none where it cannot be had, which is said."""
    try:
        return found()
    except OSError as reason:
        print(f"{what} SKIPPED:", reason)
        return []


def headers_or_skipped():
    return or_skipped("real headers", headers)


def main():
    import differential
    import dzwonolin
    import served
    served.ready(dzwonolin)
    found, run = headers_or_skipped(), differential.Comparison(20)
    run.real(found)
    files = or_skipped("real GIFTI files", label_files)
    for name, text, number in files:
        wanted = run.array_keys(random.Random(name), name, text, 0, 1048576)
        run.check(f"{name}: it was {number}", wanted == number)
    print(f"{len(found)} real headers, {len(files)} GIFTI files: {run.compared} compared, {run.differ} differ")
    if len(sys.argv) > 1:
        for name, text, _ in found:
            (pathlib.Path(sys.argv[1]) / (name + ".xml")).write_bytes(text)
    return 1 if run.differ else 0


if __name__ == "__main__":
    sys.exit(main())
