"""Makes the large scripts: `python3 bench/scripts.py NAME` writes one to standard output, and with no name lists them."""
import sys

BLOCKS = 262144


def draws(seed):
    while True:
        seed = (seed * 1103515245 + 12345) % 2 ** 31
        yield seed >> 16


def place(draw, most):
    return (next(draw) * 32768 + next(draw)) % most


def written(count, volume="/v", blocks=BLOCKS, longest=64):
    draw = draws(7)
    for _ in range(count):
        length = 1 + next(draw) % longest
        yield f"write p {volume} {place(draw, blocks - length + 1)} {length} {next(draw) % 256:02x}"


def reads(count, least, most, volume="/v"):
    draw = draws(11)
    for _ in range(count):
        length = least + next(draw) % (most - least + 1)
        yield f"read p {volume} {place(draw, BLOCKS - length + 1)} {length}"


def volumes():
    """200,000 lines `volume`: 16,384 that fit, the others refused"""
    for number in range(200000):
        yield f"volume p /v/{number} 64"


def writes():
    """200,000 writes of 1 to 64 blocks over a volume of 262,144"""
    yield f"volume p /v {BLOCKS}"
    yield from written(200000)


def shadowed():
    """the same writes, behind the first 1,000 of which a dependent shadow is enabled, and reads of the whole shadow"""
    yield f"volume p /v {BLOCKS}"
    yield f"volume p /s {BLOCKS}"
    yield "volume p /c 64"
    for number, line in enumerate(written(200000)):
        if number == 1000:
            yield "iiadm p -e dep /v /s /c"
        yield line
    for at in range(0, BLOCKS, 4096):
        yield f"read p /s {at} 4096"


def first_writes(shadow):
    yield f"volume p /v {BLOCKS}"
    yield f"volume p /s {BLOCKS}"
    yield "volume p /c 64"
    for at in range(0, BLOCKS, 256):
        yield f"write p /v {at} 256 11"
        yield f"write p /s {at} 256 22"
    if shadow:
        yield "iiadm p -e dep /v /s /c"
    for at in range(0, BLOCKS, 64):
        yield f"write p /v {at} 1 33"


def copies():
    """copy before write by itself: 4,096 writes, each of which meets a new chunk"""
    return first_writes(True)


def bare():
    """the same writes, with no shadow"""
    return first_writes(False)


def filled():
    yield f"volume p /v {BLOCKS}"
    for at in range(0, BLOCKS, 256):
        yield f"write p /v {at} 256 5a"


def small():
    """500,000 reads of 1 to 8 equal blocks"""
    yield from filled()
    yield from reads(500000, 1, 8)


def large():
    """2,000 reads of 4,096 equal blocks"""
    yield from filled()
    yield from reads(2000, 4096, 4096)


def mixed():
    """2,000 reads of 4,096 blocks, of which no two neighbours are equal"""
    yield f"volume p /v {BLOCKS}"
    for at in range(0, BLOCKS, 2):
        yield f"write p /v {at} 1 {1 + at % 255:02x}"
    yield from reads(2000, 4096, 4096)


def over_blocks(blocks):
    yield f"volume p /v {blocks}"
    yield from written(200000, blocks=blocks, longest=8)


def over_names(count):
    draw = draws(13)
    for number in range(count):
        yield f"volume p /v/{number} 64"
    for _ in range(200000):
        yield f"write p /v/{place(draw, count)} {next(draw) % 57} {1 + next(draw) % 8} 5a"


SCRIPTS = {
    "volumes": volumes, "writes": writes, "shadowed": shadowed, "copies": copies, "bare": bare, "small": small, "large": large, "mixed": mixed,
}
for blocks in (64, 4096, BLOCKS):
    SCRIPTS[f"blocks{blocks}"] = lambda blocks=blocks: over_blocks(blocks)
    SCRIPTS[f"blocks{blocks}"].__doc__ = f"200,000 writes of 1 to 8 blocks over a volume of {blocks:,}"
for count in (1, 128, 16384):
    SCRIPTS[f"names{count}"] = lambda count=count: over_names(count)
    SCRIPTS[f"names{count}"].__doc__ = f"200,000 writes of 1 to 8 blocks over {count:,} volumes of 64"

if __name__ == "__main__":
    if sys.argv[1:]:
        for statement in SCRIPTS[sys.argv[1]]():
            print(statement)
    else:
        for name, script in SCRIPTS.items():
            print(f"{name:12} {script.__doc__}")
