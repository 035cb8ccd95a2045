"""Random faults: lists and sound files with a few bytes, words or lines changed, against the model's answers."""

import re

import model
from random_projects import Dice
from harness import Scene, Suite, expect_answer

MUTATIONS = 40
ROUNDS = 25
WORDS = (
    b"(Infade)", b"(Outfade)", b"(Gain)", b"(Rem)", b"(Entry)", b"(Index)", b"(Cut)", b"(F)", b"LIN", b"_", b"0", b"1",
    b"I", b"00.00.00.00/0002", b"24.00.00.00/0000", b"24.00.00.00/0001", b"00.00.00.25/0000", b"1~2", b"2~1", b"32767",
    b"32768", b'"', b"(", b")", b"<", b"<X>", b"</X>", b"<ADL>", b"</ADL>", b"<SYSTEM>", b"\xe9", b"\r", b"\t", b"",
    b"25.0", b"25.01", b"(SYS_GAIN) 1", b"<PAN_1>", b"file:///%2F", b"-0.0",
)
SIZES = (0, 1, 2, 7, 8, 15, 16, 27, 28, 39, 40, 255, 345, 346, 601, 602, 2 ** 31, 2 ** 32 - 2, 2 ** 32 - 1)


def changed_line(dice: Dice, line: bytes) -> bytes:
    """A line with a word, or a byte, in place of another, put in, or taken out."""
    words = re.split(rb"([ \t]+)", line)
    at = dice.randrange(len(words))
    kind = dice.randrange(4)
    if kind == 0:
        words[at] = dice.choice(WORDS)
    elif kind == 1:
        words.insert(at, dice.choice(WORDS))
    elif kind == 2:
        del words[at]
    else:
        place, byte = dice.randint(0, len(line)), dice.choice((dice.randrange(256), *b'()" <>_01'))
        return line[:place] + bytes([byte]) + line[place + dice.randint(0, 1):]
    return b"".join(words)


def changed_text(dice: Dice, text: bytes) -> bytes:
    """A list with a few lines changed, doubled, swapped or taken out, or cut short."""
    lines = text.split(b"\n")
    for _ in range(dice.choice((1, 1, 1, 2, 3))):
        at, other = dice.randrange(len(lines)), dice.randrange(len(lines))
        kind = dice.randrange(8)
        if kind == 0 and len(lines) > 1:
            del lines[at]
        elif kind == 1:
            lines.insert(other, lines[at])
        elif kind == 2:
            lines[at], lines[other] = lines[other], lines[at]
        else:
            lines[at] = changed_line(dice, lines[at])
    text = b"\n".join(lines)
    return text if dice.sometimes(0.9) else text[:dice.randint(0, len(text))]


def changed_sound(dice: Dice, data: bytes) -> bytes:
    """A sound file with a few bytes or sizes changed, put in or taken out, or cut short."""
    for _ in range(dice.choice((1, 1, 2, 4))):
        at = dice.randint(0, min(len(data), dice.choice((20, 100, 700))))
        kind = dice.randrange(5)
        if kind == 0:
            data = data[:at] + bytes([dice.randrange(256)]) + data[at + 1:]
        elif kind == 1:
            data = data[:at] + dice.choice(SIZES).to_bytes(4, "little") + data[at + 4:]
        elif kind == 2:
            data = data[:at] + data[at + dice.randint(1, 12):]
        elif kind == 3:
            data = data[:at] + bytes(dice.randint(1, 12)) + data[at:]
        else:
            names = [found.start() for found in re.finditer(rb"fmt |data|bext|ds64|JUNK|LIST", data)]
            at = dice.choice(names or [0]) + 4
            data = data[:at] + dice.choice(SIZES).to_bytes(4, "little") + data[at + 4:]
    return data if dice.sometimes(0.8) else data[:dice.randint(0, len(data))]


def mutations(seed: int):
    """Checked, as the model checks them."""
    def body(scene: Scene) -> None:
        for turn in range(ROUNDS):
            dice = Dice(seed * ROUNDS + turn)
            text, media, _ = dice.project()
            if dice.sometimes(0.6):
                text = changed_text(dice, text)
            else:
                media = {name: changed_sound(dice, data) for name, data in media.items()}
            scene.put(text, media)
            expect_answer(scene, "check", model.answer("check", text, media))
    return body


def run(suite: Suite) -> None:
    for seed in range(MUTATIONS):
        suite.case(f"random faults {seed}", mutations(seed))
