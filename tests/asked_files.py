"""Files made from case A: read in both orders, and for every number of a front one that it refuses."""
import struct

from paper import CASE_A

SIZE = -(-(8 + len(CASE_A)) // 16) * 16
MAGIC = b"n+2\0\r\n\x1a\n"


def file(order="<", dims=(6, 1, 1, 1, 1, 2, 3, 1), offset=544 + SIZE, extender=b"\1\0\0\0", field=540, magic=MAGIC, size=SIZE, code=32,
         body=CASE_A, length=None, front=b""):
    """A header and a list, `front` before the extension that has the text."""
    header = struct.pack(order + "i", field) + magic + bytes(4) + struct.pack(order + "8q", *dims)
    header = header.ljust(168, b"\0") + struct.pack(order + "q", offset + len(front))
    data = header.ljust(540, b"\0") + extender + front + struct.pack(order + "2i", size, code) + body.ljust(SIZE - 8, b"\0")
    return data[:length]


def extension(code, body, order="<"):
    return struct.pack(order + "2i", 8 + len(body), code) + body


FILES = {
    "case A, least first": file(),
    "case A, most first": file(">"),
    "behind another extension": file(front=extension(6, bytes(24))),
    "before a second of code 32": file(offset=560 + SIZE) + extension(32, bytes(8)),
    "a bad size behind the text": file(offset=560 + SIZE) + extension(6, bytes(4)) + bytes(4),
    "543 bytes": file(length=543),
    "another size field": file(field=348),
    "another magic": file(magic=b"n+1\0\r\n\x1a\n"),
    "a data offset of 543": file(offset=543),
    "a data offset below 0": file(offset=-16),
    "five dims": file(dims=(5, 1, 1, 1, 1, 2, 1, 1)),
    "a dim[4] of 2": file(dims=(6, 1, 1, 1, 2, 2, 3, 1)),
    "a length of 0": file(dims=(6, 1, 1, 1, 1, 2, 0, 1)),
    "a length below 0": file(dims=(6, 1, 1, 1, 1, 2, -3, 1)),
    "a dim[7] that is not asked": file(dims=(6, 1, 1, 1, 1, 2, 3, 0)),
    "three lengths": file(dims=(7, 1, 1, 1, 1, 2, 3, 1)),
    "a size of 8 less": file(size=SIZE - 8),
    "a size of 0": file(size=0),
    "a data offset past the bytes": file(offset=560 + SIZE),
    "a data offset inside the list": file(offset=560),
    "no extender": file(extender=bytes(4)),
    "a second extender byte alone": file(extender=b"\0\1\0\0"),
    "an empty list": file(offset=544),
    "another code": file(code=6),
    "lengths exchanged": file(dims=(6, 1, 1, 1, 1, 3, 2, 1)),
    "a length above the limit": file(dims=(6, 1, 1, 1, 1, 2, 1048577, 1)),
    "an all-zero body": file(body=b""),
    "a zero inside the text": file(body=CASE_A[:40] + b"\0" + CASE_A[41:]),
}
