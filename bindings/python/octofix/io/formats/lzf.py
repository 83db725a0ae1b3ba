"""The packing of binary_compressed PCD files."""

from ..errors import Unusable


def unpacked(packed, size):
    """What the bytes of an LZF stream stand for; `size` bytes, or Unusable."""
    plain, at = bytearray(), 0
    try:
        while at < len(packed) and len(plain) <= size:
            control = packed[at]
            at += 1
            if control < 32:
                plain += packed[at : at + control + 1]
                at += control + 1
                continue
            length = 2 + (control >> 5)
            if length == 9:
                length += packed[at]
                at += 1
            back = 1 + ((control & 31) << 8) + packed[at]
            at += 1
            _repeat(plain, back, length)
    except IndexError:
        raise Unusable("its compressed data is damaged") from None
    if len(plain) != size:
        raise Unusable("its compressed data is damaged")
    return bytes(plain)


def _repeat(plain, back, length):
    """Appends bytes that stand `back` bytes before the end, which may be among those appended."""
    start = len(plain) - back
    if start < 0:
        raise IndexError
    if length <= back:
        plain += plain[start : start + length]
    else:
        piece = plain[start:]
        plain += (piece * (length // back + 1))[:length]
