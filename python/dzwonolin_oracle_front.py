"""An independent reading of the front of a NIfTI-2 file, from the paper's words on files: refusals 20 to 23, in that order.

What is read is any buffer of bytes, a mapped file too; only the fields and the list are looked at.
"""
import collections
import struct

from dzwonolin_oracle_markup import Refused

Front = collections.namedtuple("Front", "lengths start length")
MAGIC = b"n+2\0\r\n\x1a\n"
FIRST, TEXT_CODE = 544, 32


def order_of(data):
    if len(data) < FIRST:
        raise Refused(20, f"it has {len(data)} bytes, and the header alone has {FIRST}", 0)
    for order in "<>":
        if struct.unpack_from(order + "i", data)[0] == 540:
            return order
    raise Refused(20, f"its size field is {struct.unpack_from('<i', data)[0]}, and must be 540", 0)


def lengths_of(data, order):
    dims = struct.unpack_from(order + "8q", data, 16)
    if dims[0] not in (6, 7):
        raise Refused(21, f"dim[0] is {dims[0]}, and must be 6 or 7", 16)
    for n in range(1, 5):
        if dims[n] != 1:
            raise Refused(21, f"dim[{n}] is {dims[n]}, and must be 1", 16 + 8 * n)
    for n in range(5, dims[0] + 1):
        if dims[n] < 1:
            raise Refused(21, f"dim[{n}] is {dims[n]}, and must be 1 or more", 16 + 8 * n)
    return list(dims[5:dims[0] + 1])


def extensions(data, order, end):
    """(code, start of the body, its length) of each; the list ends at the data offset."""
    if data[540] == 0:
        return []
    if end > len(data):
        raise Refused(22, f"its data offset is {end}, and it has only {len(data)} bytes", 168)
    found, at = [], FIRST
    while at < end:
        if end - at < 16:
            raise Refused(22, f"{end - at} bytes are left before the data offset, too few for an extension", at)
        size, code = struct.unpack_from(order + "2i", data, at)
        if size < 16 or size % 16 or at + size > end:
            raise Refused(22, f"an extension says that it has {size} bytes: it must be a multiple of 16 and end before {end}", at)
        found.append((code, at + 8, size - 8))
        at += size
    return found


def front(data):
    """The lengths, and where the header text starts and how long it is."""
    order = order_of(data)
    if bytes(data[4:12]) != MAGIC:
        raise Refused(20, f"its magic is {bytes(data[4:12])!r}, and must be {MAGIC!r}", 4)
    offset = struct.unpack_from(order + "q", data, 168)[0]
    if offset < FIRST:
        raise Refused(20, f"its data offset is {offset}, and must be {FIRST} or more", 168)
    lengths = lengths_of(data, order)
    listed = extensions(data, order, offset)
    for code, start, length in listed:
        if code == TEXT_CODE:
            return Front(lengths, start, len(bytes(data[start:start + length]).rstrip(b"\0")))
    codes = ", ".join(str(code) for code, _, _ in listed)
    raise Refused(23, f"it has extensions of codes {codes}" if listed else "it has no extensions at all", 540)
