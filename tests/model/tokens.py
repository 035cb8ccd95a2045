"""The tokens of a line: quoted, keyword, word."""

from enum import Enum
from typing import Iterator, NamedTuple

BLANK = b" \t"
MARKS = b'()"'


class Kind(Enum):
    QUOTED = 1
    KEYWORD = 2
    WORD = 3


class Token(NamedTuple):
    kind: Kind
    content: bytes

    def is_keyword(self, name: bytes) -> bool:
        """Keywords may have any case."""
        return self.kind is Kind.KEYWORD and self.content.lower() == name.lower()


class BadToken(Exception):
    """A byte that can't stand there: 1 for one that stands nowhere, 2 for one out of place."""

    def __init__(self, number: int):
        super().__init__(number)
        self.number = number


def is_plain(byte: int) -> bool:
    """A byte of a word or a keyword."""
    return 0x21 <= byte <= 0x7E and byte not in MARKS


def plain_end(line: bytes, at: int) -> int:
    while at < len(line) and is_plain(line[at]):
        at += 1
    return at


def fault_at(line: bytes, at: int) -> BadToken:
    """The fault of the byte here, or of the line's end."""
    in_place = at == len(line) or 0x20 <= line[at] <= 0x7E or line[at] == 9
    return BadToken(2 if in_place else 1)


def quoted(line: bytes, at: int) -> tuple:
    end = at
    while end < len(line) and line[end] not in b'"\r':
        end += 1
    if end == len(line) or line[end] != ord('"'):
        raise BadToken(2 if end == len(line) else 1)
    return Token(Kind.QUOTED, line[at:end]), end + 1


def keyword(line: bytes, at: int) -> tuple:
    end = plain_end(line, at)
    if end == at or line[end:end + 1] != b")":
        raise fault_at(line, end)
    return Token(Kind.KEYWORD, line[at:end]), end + 1


def tokens_of(line: bytes) -> Iterator[Token]:
    """The tokens from the left, up to the first byte that can't stand there."""
    at = 0
    while at < len(line):
        if line[at] in BLANK:
            at += 1
            continue
        if line[at] == ord('"'):
            token, at = quoted(line, at + 1)
        elif line[at] == ord("("):
            token, at = keyword(line, at + 1)
        elif is_plain(line[at]):
            end = plain_end(line, at)
            token, at = Token(Kind.WORD, line[at:end]), end
        else:
            raise fault_at(line, at)
        yield token
