"""Times of day: hours, minutes, seconds, frames at a rate, and a remainder of samples."""

import re
from typing import Optional

DAY = 4_147_200_000
SAMPLES_A_SECOND = 48_000
RATES = (24, 25, 30)
USUAL_RATE = 25

SEPARATOR = rb"[:;.,|=/]"
TIME = re.compile(SEPARATOR.join([rb"(\d\d)"] * 4 + [rb"(\d{4})"]))


def time_value(text: bytes, rate: int = USUAL_RATE) -> Optional[int]:
    """The samples since midnight that a text tells; None where it is no time of day."""
    found = TIME.fullmatch(text)
    if not found:
        return None
    hours, minutes, seconds, frames, rest = map(int, found.groups())
    frame = SAMPLES_A_SECOND // rate
    value = (((hours * 60 + minutes) * 60 + seconds) * rate + frames) * frame + rest
    in_the_day = hours < 24 and minutes < 60 and seconds < 60 and frames < rate and rest < frame
    at_its_end = (hours, minutes, seconds, frames, rest) == (24, 0, 0, 0, 0)
    return value if in_the_day or at_its_end else None


def time_text(value: int, separators: bytes = b".../", rate: int = USUAL_RATE) -> bytes:
    frames, rest = divmod(value, SAMPLES_A_SECOND // rate)
    seconds, frames = divmod(frames, rate)
    minutes, seconds = divmod(seconds, 60)
    hours, minutes = divmod(minutes, 60)
    digits = f"{hours:02d}:{minutes:02d}:{seconds:02d}:{frames:02d}:{rest:04d}".encode()
    first, second, third, last = (separators[at:at + 1] for at in range(4))
    return digits[:2] + first + digits[3:5] + second + digits[6:8] + third + digits[9:11] + last + digits[12:]


def separators_of(text: bytes) -> bytes:
    return bytes(text[at] for at in (2, 5, 8, 11))
