"""The marks of a rendering, by which it goes on after a stop."""

import hashlib
import struct

from .mixing import Range

BLOCK = 4096
FRONT = 44


def marks_of(text: bytes, part: Range, depth: int, done: bool = True) -> bytes:
    """The marks of a rendering of a list, all of them set, or none."""
    told = struct.pack("<QQHH", part.begin, part.end, part.channels, depth)
    blocks = -(-part.frames() // BLOCK)
    head = b"ADLMRK1" + hashlib.sha256(told + text).digest() + struct.pack("<I", blocks)
    return b"\1" + head + bytes([done]) * blocks
