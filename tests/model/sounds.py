"""Sound files: what the bytes of one say (RIFF WAVE, EBU Tech 3285, EBU Tech 3306), and the bytes of a written one."""

import struct
from typing import NamedTuple, Optional

TEXT_SIZE = 338
SHORTEST_BEXT = 346
HISTORY_AT = 602
MOST_HISTORY = 65_536
UNTOLD = 0xFFFFFFFF
COUNTED = (b"fmt ", b"bext", b"data")
PCM_SUB_FORMAT = bytes.fromhex("0100000000001000800000aa00389b71")
RATE = 48_000


class BadFile(Exception):
    """A file isn't a sound file that is read."""

    def __init__(self, number: int):
        super().__init__(number)
        self.number = number


class Sound(NamedTuple):
    """A file's facts and the bytes of its whole frames. The texts are the first 338 bytes of `bext`."""
    channels: int
    depth: int
    data: bytes
    text: bytes = bytes(TEXT_SIZE)
    time_reference: Optional[int] = None
    history: bytes = b""
    short_bext: bool = False
    history_cut: bool = False
    others: bool = False

    def frame_size(self) -> int:
        return self.channels * self.depth // 8

    def frames(self) -> int:
        return len(self.data) // self.frame_size()

    def bytes_of(self, first: int, length: int) -> bytes:
        size = self.frame_size()
        return self.data[first * size:(first + length) * size]

    def samples(self, channel: int, first: int, length: int) -> list:
        """The samples of a channel, which is counted from 1."""
        size, step = self.depth // 8, self.frame_size()
        begin = first * step + (channel - 1) * size
        return [
            int.from_bytes(self.data[at:at + size], "little", signed=True)
            for at in range(begin, begin + length * step, step)
        ]

    def is_silent(self, first_channel: int, width: int, first: int, length: int) -> bool:
        if width == self.channels:
            return not any(self.bytes_of(first, length))
        return not any(
            any(self.samples(channel, first, length)) for channel in range(first_channel, first_channel + width))


class Sizes(NamedTuple):
    """What `ds64` tells: the size of `data`, and the first size of each other chunk."""
    data: int
    table: dict


def sizes_of(data: bytes) -> Sizes:
    """The `ds64` of an RF64 file, which is its first chunk."""
    if len(data) < 20 or data[12:16] != b"ds64":
        raise BadFile(28)
    size, = struct.unpack_from("<I", data, 16)
    if 20 + size > len(data) or size < 28:
        raise BadFile(28)
    _, data_size, _, count = struct.unpack_from("<QQQI", data, 20)
    if 28 + 12 * count > size:
        raise BadFile(28)
    table = {}
    for place in range(count):
        name, length = struct.unpack_from("<4sQ", data, 48 + 12 * place)
        table.setdefault(name, length)
    return Sizes(data_size, table)


def true_size(name: bytes, size: int, sizes: Optional[Sizes]) -> int:
    if size != UNTOLD or sizes is None:
        return size
    if name == b"data":
        return sizes.data
    if name not in sizes.table:
        raise BadFile(28)
    return sizes.table[name]


class Chunks(NamedTuple):
    """The bytes of the chunks that count, and whether others stand beside them."""
    bodies: dict
    others: bool


def chunks_of(data: bytes) -> Chunks:
    """The first `fmt `, `bext` and `data` of a file."""
    if len(data) < 12 or data[:4] not in (b"RIFF", b"RF64") or data[8:12] != b"WAVE":
        raise BadFile(23)
    sizes = sizes_of(data) if data[:4] == b"RF64" else None
    found, others, at = {}, False, 12
    while len(data) - at >= 8:
        name, size = struct.unpack_from("<4sI", data, at)
        size = true_size(name, size, sizes) if not (sizes and at == 12) else size
        counts = name in COUNTED and name not in found
        others = others or not (counts or name == b"JUNK" or (sizes and at == 12))
        if at + 8 + size > len(data):
            if counts:
                raise BadFile(26)
            break
        if counts:
            found[name] = data[at + 8:at + 8 + size]
        at += 8 + size + size % 2
    return Chunks(found, others)


def format_of(body: bytes) -> tuple:
    """Channels and depth."""
    if len(body) < 16:
        raise BadFile(27)
    tag, channels, rate, _, block, bits = struct.unpack_from("<HHIIHH", body)
    if tag == 0xFFFE:
        if len(body) < 40 or struct.unpack_from("<H", body, 16) != (22,) or body[24:40] != PCM_SUB_FORMAT:
            raise BadFile(27)
    elif tag != 1:
        raise BadFile(27)
    if bits not in (16, 24, 32) or not 1 <= channels <= 64 or block != channels * bits // 8:
        raise BadFile(27)
    if rate != RATE:
        raise BadFile(29)
    return channels, bits


def read_sound(data: bytes) -> Sound:
    chunks = chunks_of(data)
    if b"fmt " not in chunks.bodies:
        raise BadFile(24)
    if b"data" not in chunks.bodies:
        raise BadFile(25)
    channels, depth = format_of(chunks.bodies[b"fmt "])
    body = chunks.bodies[b"data"]
    size = channels * depth // 8
    sound = Sound(channels, depth, body[:len(body) // size * size], others=chunks.others)
    bext = chunks.bodies.get(b"bext")
    if bext is None:
        return sound
    if len(bext) < SHORTEST_BEXT:
        return sound._replace(short_bext=True)
    history = bext[HISTORY_AT:]
    return sound._replace(
        text=bext[:TEXT_SIZE], time_reference=struct.unpack_from("<Q", bext, TEXT_SIZE)[0],
        history=history[:MOST_HISTORY], history_cut=len(history) > MOST_HISTORY)


def packed(depth: int, samples: list) -> bytes:
    """The bytes of samples, one after the other."""
    return b"".join(sample.to_bytes(depth // 8, "little", signed=True) for sample in samples)


def chunk(name: bytes, body: bytes) -> bytes:
    return name + struct.pack("<I", len(body)) + body + bytes(len(body) % 2)


def written_size(sound_bytes: int, history: int = 0) -> int:
    """What a written RIFF file's size field has to tell."""
    return 682 + history + history % 2 + sound_bytes + sound_bytes % 2


def written_sound(sound: Sound) -> bytes:
    """A Broadcast Wave file, version 1 (EBU Tech 3285), with a place for `ds64` (EBU Tech 3306)."""
    size = sound.frame_size()
    form = struct.pack("<HHIIHH", 1, sound.channels, RATE, RATE * size, size, sound.depth)
    body = b"".join((
        b"WAVE",
        chunk(b"JUNK", bytes(28)),
        chunk(b"bext", sound.text + struct.pack("<QH", sound.time_reference, 1) + bytes(254) + sound.history),
        chunk(b"fmt ", form),
        chunk(b"data", sound.data),
    ))
    return b"RIFF" + struct.pack("<I", len(body)) + body
