"""Numbers of sources that are chosen so that the map that holds them is slow: the worst that were found."""

from measuring import Bench, Cut, Job, block_of, line, list_text, make_sound, table

LARGEST = 32_767
LANES = 9
GROUPS = 2_048
COUNT = LANES * GROUPS
SEED = 0x243F_6A88_85A3_08D3
MULTIPLIER = 0x9E37_79B9_7F4A_7C15
LOW = 2 ** 64 - 1


def hash_of(number: int) -> int:
    """What the map's hash, which has a fixed seed, makes of a number of 32 bits."""
    product = (SEED ^ (number | number << 32)) * (MULTIPLIER ^ 8)
    folded = (product & LOW) ^ (product >> 64)
    return (folded ^ (folded >> 32)) & 0xFFFF_FFFF


def worst_numbers() -> list:
    """As many numbers as fill a table of these groups, so that they begin in as few of them as there can be, one behind
    the other: each is sought through all groups behind its own that are full. The last ones begin first."""
    return sorted(range(1, LARGEST + 1), key=lambda number: hash_of(number) % GROUPS)[:COUNT][::-1]


def list_over(numbers: list) -> str:
    """A list over one file, by a source of each number, each with an entry."""
    cuts = (Cut(0, 5 * place, 4, index=number) for place, number in enumerate(numbers))
    return list_text(cuts, ["A.wav"] * len(numbers), numbers=numbers)


def lines(bench: Bench) -> list:
    make_sound(bench.media() / "A.wav", block_of(200, 1, 16), 1)
    texts = {"turn": list(range(1, COUNT + 1)), "worst": worst_numbers()}
    jobs = {}
    for name, numbers in texts.items():
        path = bench.folder / f"{name}.adl"
        path.write_text(list_over(numbers))
        jobs[name] = Job(bench.words("check", path), None, 0)
    costs = bench.costs_of(jobs)
    return [
        *table(f"`check` of {COUNT:,} sources and entries", "Seconds", "Peak memory, KB", "Time to numbers in turn"),
        line("numbered in turn", costs["turn"], (None,)),
        line("numbered so that the map of sources is slow", costs["worst"], (costs["turn"],)),
    ]
