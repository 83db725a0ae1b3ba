"""Kinds of files by their first bytes, so that one which isn't read is called by its name."""

import re

from .errors import Unusable
from .files import MOST_BYTES, read_bytes
from .notes import say

ROS_BAG = b"#ROSBAG V"
LAS = b"LASF"
FRONT = 1024
UTF_16 = "text in UTF-16, and UTF-8 is read (iconv -f UTF-16 -t UTF-8)"
UNREAD = [
    (rb"PK(\x03\x04|\x05\x06)", "a ZIP archive, as a .npz is one"),
    (rb"BZh|\xfd7zXZ\0|\x28\xb5\x2f\xfd|7z\xbc\xaf|Rar!", "packed, and only gzip is unpacked"),
    (rb"SQLite format 3\0", "an SQLite file, as a ROS 2 bag is one, which isn't read"),
    (rb"\x89MCAP", "an MCAP file of ROS 2, which isn't read"),
    (rb"ASTM-E57", "an E57 file, which isn't read"),
    (rb"\x89HDF", "an HDF5 file, which isn't read"),
    (rb"\x89PNG|\xff\xd8\xff", "a picture"),
    (rb"%PDF", "a PDF"),
    (rb"\x7fELF", "a program"),
    (rb"# Octomap OcTree|OCTSNAP", "a map, and no cloud"),
    (rb"\xff\xfe\0\0|\0\0\xfe\xff", "text in UTF-32, and UTF-8 is read"),
    (rb"\xff\xfe|\xfe\xff", UTF_16),
    (rb"[^\0]\0([^\0]\0){7}|\0[^\0](\0[^\0]){7}", UTF_16),
]  # fmt: skip
CR_ALONE = rb"[^\r\n]*\r+[^\r\n]"


def refuse_unread(content):
    """Unusable where the content is of a kind that isn't read, or no text."""
    for sign, kind in UNREAD:
        if re.match(sign, content):
            raise Unusable(f"it is {kind}")
    if re.search(rb"[\0-\x08\x0e-\x1a\x7f]", content[:FRONT]):
        raise Unusable("it is no text, and its first bytes are of no kind that is read")
    if re.match(CR_ALONE, content):
        raise Unusable("its lines end with CR alone, and LF or CR LF is read (tr '\\r' '\\n')")


def refuse_empty(content):
    """Unusable where there is no content, or no number of bytes."""
    if not content:
        raise Unusable("it is empty")


def text_of(name):
    """The content of a text file in UTF-8; a byte that isn't is replaced."""
    content = read_bytes(name, MOST_BYTES)
    try:
        refuse_empty(content)
        refuse_unread(content)
    except Unusable as why:
        raise why.named(name)
    return content.decode("utf-8-sig", "replace")


def tell_cut(name, text):
    """Says so where the last line has no end, since its last number may have lost digits."""
    said = cut_of(name, text.encode())
    if said:
        say(said)


def cut_of(name, content):
    """What is said where the last line of a text has no end, or None."""
    last = content[content.rfind(b"\n") + 1 :].strip()
    if not last or last.startswith((b"#", b"//")):
        return None
    line = content.count(b"\n") + 1
    return f"{name}:{line}: the last line has no end (LF), so the file may have been cut"
