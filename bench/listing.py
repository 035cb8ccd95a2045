"""Reading and checking: long lists, many files, many chunks, and what is no list."""

import random
import struct

from measuring import Bench, Cut, Job, block_of, bytes_read, line, list_text, make_sound, sound_head, table

MANY = 32_767
MOST_KEPT = 65_535
FILES = 10_000
HALF = MANY // 2
GARBAGE = 50_000_000
CHUNKS_SIZE = 3 * 2 ** 30
SIZES = 400_000
SIZED_CHUNKS = 600_000


def check_job(bench: Bench, text: str, status: int = 0) -> Job:
    """One check of this list."""
    return Job(bench.words("check", bench.put(text)), None, status)


def checked(bench: Bench, text: str, status: int = 0):
    return bench.costs_of({"one": check_job(bench, text, status)})["one"]


def entries(count: int) -> str:
    return list_text(Cut(place % 100, 5 * place, 4) for place in range(count))


def over_files(count: int, many: int) -> str:
    """So many entries over so many files."""
    names = [f"S{number:05d}.wav" for number in range(count)]
    return list_text((Cut(0, 5 * place, 4, index=1 + place % count) for place in range(many)), names)


def read_of_each(bench: Bench) -> int:
    """How many bytes are read of each of many files that are checked."""
    text = bench.put(over_files(FILES, FILES))
    return (bytes_read(bench.words("check", text)) - text.stat().st_size) // FILES


def longest_list() -> str:
    """As many entries, indexes and kept lines as there may be."""
    kept = ["<VERSION>", *["(Ver) a kept line"] * (MOST_KEPT - 2), "</VERSION>"]
    cuts = (Cut(0, 5 * place, 4, index=place + 1) for place in range(MANY))
    return list_text(cuts, ["A.wav"] * MANY, head=kept)


def many_chunks(bench: Bench, count: int) -> None:
    """A file with so many small chunks before its sound."""
    block = block_of(200, 1, 16)
    head = sound_head(1, 16, len(block))
    (bench.media() / "A.wav").write_bytes(head[:36] + b"JUNK\2\0\0\0xx" * count + head[36:] + block)


def empty_chunks(bench: Bench) -> None:
    """A file of empty chunks alone."""
    with (bench.media() / "A.wav").open("wb") as file:
        file.write(b"RIFF\0\0\0\0WAVE")
        file.truncate(CHUNKS_SIZE)


def sized_chunks(bench: Bench) -> None:
    """An RF64 file with chunks whose size is the last one of a long table (EBU Tech 3306)."""
    block = block_of(200, 1, 16)
    sizes = (b"XXXX" + struct.pack("<Q", 2)) * (SIZES - 1) + b"JUNK" + struct.pack("<Q", 2)
    chunks = b"JUNK\xff\xff\xff\xffxx" * SIZED_CHUNKS + sound_head(1, 16, len(block))[12:] + block
    size = 4 + 8 + 28 + len(sizes) + len(chunks)
    told = struct.pack("<QQQI", size, len(block), 200, SIZES) + sizes
    (bench.media() / "A.wav").write_bytes(
        b"RF64\xff\xff\xff\xffWAVEds64" + struct.pack("<I", len(told)) + told + chunks)


def garbage() -> dict:
    """Long texts that are no list."""
    dice = random.Random(1)
    return {
        "50 MB of no list": "".join(dice.choices("<ADL> \n\x01\x7f(", k=1000)) * (GARBAGE // 1000),
        "50 MB of one line": "<ADL>\n<SEQUENCE>\n" + "x " * (GARBAGE // 2),
        "50 MB of sections": "<ADL>\n" + "<X>\nx\n</X>\n" * (GARBAGE // 11),
    }


def rows(bench: Bench) -> list:
    block = block_of(200, 1, 16)
    make_sound(bench.media() / "A.wav", block, 1)
    for number in range(FILES):
        make_sound(bench.media() / f"S{number:05d}.wav", block, 1)
    return [
        ("32,767 entries over one file", checked(bench, entries(MANY))),
        ("16,383 entries over one file", checked(bench, entries(HALF))),
        ("32,767 entries over 2,000 files", checked(bench, over_files(2000, MANY))),
        (f"10,000 entries over 10,000 files, of each of which {read_of_each(bench)} bytes are read",
         checked(bench, over_files(FILES, FILES))),
        ("32,767 entries, 32,767 indexes, 65,535 kept lines", checked(bench, longest_list())),
        *((name, checked(bench, text, 1)) for name, text in garbage().items()),
    ]


def chunk_rows(bench: Bench) -> list:
    many_chunks(bench, 100_000)
    small = checked(bench, entries(1))
    sized_chunks(bench)
    sized = checked(bench, entries(1))
    empty_chunks(bench)
    return [
        ("a file of 100,000 small chunks", small),
        ("an RF64 file of 600,000 chunks, their sizes in a table of 400,000", sized),
        ("a file of 3 GB of empty chunks", checked(bench, entries(1), 1)),
    ]


def lines(bench: Bench) -> list:
    costs = [*rows(bench), *chunk_rows(bench)]
    return [*table("`check`", "Seconds", "Peak memory, KB"), *(line(name, cost, ()) for name, cost in costs)]
