"""Lists and files whose bytes are known from tables, not from any program."""

import hashlib
import re
import struct
from pathlib import Path

CHANGELOG = Path(__file__).resolve().parent.parent / "CHANGELOG.md"
# The version that the change log describes last.
VERSION = re.search(r"^## \[(\d+\.\d+\.\d+)\]", CHANGELOG.read_text(), re.M)[1]

FIRST_LIST = b"""<ADL>
<SEQUENCE>
(SEQ_SAMPLE_RATE) S48000
(SEQ_FRAME_RATE) 25
</SEQUENCE>
<SOURCE_INDEX>
(Index) 0001 (F) "URL:file://localhost/A.wav" _ 00.00.00.00/0000 _
</SOURCE_INDEX>
<EVENT_LIST>
(Entry) 0001 (Cut) I 0001 1 1 00.00.00.00/0000 01.00.00.00/0000 01.00.00.00/0004
</EVENT_LIST>
</ADL>
"""

CONSOLIDATED_LIST = FIRST_LIST.replace(
    b'A.wav" _ 00.00.00.00/0000 _', b'M00001.wav" _ 00.00.00.00/0000 00.00.00.00/0004'
).replace(b"\n", b"\r\n")

EMPTY_LIST = b"".join(
    line + b"\r\n" for line in FIRST_LIST.splitlines() if not line.startswith((b"(Index)", b"(Entry)"))
)

# From EBU Tech 3285 and RIFF WAVE: where each part begins, and its bytes. All other bytes are zero.
RENDERED_PARTS = (
    (0, "52494646 b2020000 57415645"),
    (12, "4a554e4b 1c000000"),
    (48, "62657874 5a020000"),
    (394, "00b84c0a 00000000 0100"),
    (658, "666d7420 10000000 0100 0100 80bb0000 00770100 0200 1000"),
    (682, "64617461 08000000"),
    (690, "e803 18fc ff7f 0080"),
)
RENDERED_LENGTH = 698

FIRST_SAMPLES = (1000, -1000, 32767, -32768)


def rendered_bytes() -> bytes:
    """The rendered file of the first list, by the table of its bytes."""
    data = bytearray(RENDERED_LENGTH)
    for at, digits in RENDERED_PARTS:
        part = bytes.fromhex(digits)
        data[at:at + len(part)] = part
    return bytes(data)


# Before the list: from, to, channels and depth of its rendering at 16 bits.
FIRST_RUN = bytes.fromhex("00b84c0a00000000 04b84c0a00000000 0100 1000")


def rendered_files() -> dict:
    """The rendered file of the first list, and the marks beside it: one block, which is marked."""
    digest = hashlib.sha256(FIRST_RUN + FIRST_LIST).digest()
    return {"render.wav": rendered_bytes(), "render.marks": b"\1ADLMRK1" + digest + bytes.fromhex("01000000 01")}


def consolidated_bytes() -> bytes:
    """The medium of the first list: the same, but that it begins at midnight."""
    data = bytearray(rendered_bytes())
    data[394:402] = bytes(8)
    return bytes(data)


def changed(line: int, text: bytes) -> bytes:
    """The first list with another text in a line, counted from 1."""
    lines = FIRST_LIST.splitlines()
    lines[line - 1] = text
    return b"".join(each + b"\n" for each in lines)


def without(line: int) -> bytes:
    lines = FIRST_LIST.splitlines()
    del lines[line - 1]
    return b"".join(each + b"\n" for each in lines)


def with_line_after(line: int, text: bytes) -> bytes:
    lines = FIRST_LIST.splitlines()
    lines.insert(line, text)
    return b"".join(each + b"\n" for each in lines)


def riff_chunk(name: bytes, body: bytes) -> bytes:
    return name + struct.pack("<I", len(body)) + body + bytes(len(body) % 2)


def format_chunk(tag=1, channels=1, rate=48000, bits=16, block=None, more=b"") -> bytes:
    block = channels * bits // 8 if block is None else block
    body = struct.pack("<HHIIHH", tag, channels, rate, rate * block, block, bits) + more
    return riff_chunk(b"fmt ", body)


def extensible_chunk(channels=1, bits=16, size=22, sub_format="0100000000001000800000aa00389b71", **form) -> bytes:
    """The format by its sub-format, here PCM (RIFF WAVE, WAVEFORMATEXTENSIBLE)."""
    more = struct.pack("<HHI", size, bits, 0) + bytes.fromhex(sub_format)
    return format_chunk(tag=0xFFFE, channels=channels, bits=bits, more=more, **form)


def data_chunk(samples, depth=16) -> bytes:
    return riff_chunk(b"data", b"".join(sample.to_bytes(depth // 8, "little", signed=True) for sample in samples))


def bext_chunk(time_reference=0, text=b"", history=b"", size=None) -> bytes:
    """Broadcast extension, version 1 (EBU Tech 3285), cut to a size where one is told."""
    body = text.ljust(338, b"\0") + struct.pack("<QH", time_reference, 1) + bytes(254) + history
    return riff_chunk(b"bext", body[:size])


def sizes_chunk(data_size, table=(), samples=0) -> bytes:
    """The sizes of an RF64 file (EBU Tech 3306)."""
    entries = b"".join(struct.pack("<4sQ", name, size) for name, size in table)
    return riff_chunk(b"ds64", struct.pack("<QQQI", 0, data_size, samples, len(table)) + entries)


def size_changed(chunk: bytes, size: int) -> bytes:
    return chunk[:4] + struct.pack("<I", size) + chunk[8:]


def rf64_file(*chunks: bytes) -> bytes:
    return b"RF64" + b"\xff" * 4 + b"WAVE" + b"".join(chunks)


def riff_file(*chunks: bytes, name: bytes = b"RIFF", form: bytes = b"WAVE") -> bytes:
    body = form + b"".join(chunks)
    return name + struct.pack("<I", len(body)) + body


def wave(samples=FIRST_SAMPLES) -> bytes:
    """A plain mono file of 16 bits at 48000."""
    return riff_file(format_chunk(), data_chunk(samples))
