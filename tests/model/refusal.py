"""How a command refuses, and what it tells beside that."""

import unicodedata
from typing import NamedTuple

# What an invisible character that isn't of category Cc, Cf, Zl or Zp is called.
BLANKS = ("HANGUL FILLER", "SEONG FILLER", "VARIATION SELECTOR", "VOWEL INHERENT", "GRAPHEME JOINER", "PATTERN BLANK")
# Code points that UAX 44 reserves for further invisible characters.
RESERVED = {0x2065, *range(0xFFF0, 0xFFF9), *range(0xE0000, 0xE1000)}


class Refused(Exception):
    """The program answers one line `refused NN` and the place."""

    def __init__(self, number: int, place: str = ""):
        super().__init__(f"refused {number:02d}{place}")
        self.number = number
        self.place = place

    def further(self) -> str:
        """How it is told behind another one."""
        return f"also {self.number:02d}{self.place}"


class Notice(NamedTuple):
    """Something that is told and changes no answer: at a line of the list, or at an index."""
    kind: int
    at: int

    def line(self) -> str:
        place = "line" if self.kind <= 2 else "index"
        return f"notice {self.kind} at {place} {self.at}"


def is_unseen(character: str) -> bool:
    """Returns whether a character is invisible, by the Unicode standard."""
    return (
        unicodedata.category(character) in ("Cc", "Cf", "Zl", "Zp") or ord(character) in RESERVED
        or any(name in unicodedata.name(character, "") for name in BLANKS))


def printed_name(name: str) -> str:
    """Returns a name as it is printed in a line: invisible characters as the percent escapes of their bytes."""
    return "".join(
        "".join(f"%{byte:02X}" for byte in each.encode()) if is_unseen(each) else each for each in name)
