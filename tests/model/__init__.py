"""An independent model of the program: what a command has to answer for a list over its media.

It reads lists and sound files by itself, adds with Python's whole numbers, and takes nothing from the program.
"""

from .commands import COMMANDS, STANDARD, WRITING, Answer, Options, accepted, answer, consolidate, range_of, render
from .comparison import Side, compare
from .marks import BLOCK, FRONT, marks_of
from .mixing import sums_of
from .refusal import Refused
from .sounds import BadFile, Sound, chunks_of, packed, read_sound, written_sound
from .spelling import entry_line, fade_line, list_text, source_line
from .text import read_list
from .times import DAY, USUAL_RATE, time_text, time_value

__all__ = [
    "BLOCK", "COMMANDS", "DAY", "FRONT", "STANDARD", "WRITING", "Answer", "BadFile", "Options", "Refused", "Side",
    "Sound", "accepted", "answer", "chunks_of", "compare", "consolidate", "entry_line", "fade_line", "list_text",
    "packed", "range_of", "read_list", "read_sound", "render", "source_line", "sums_of", "time_text", "time_value",
    "written_sound",
]
