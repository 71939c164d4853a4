#!/usr/bin/env python3
"""Writes scripts in which a tear meets each device write of a write of some blocks, with their answers as whole images give them.

How often a write writes each disk stands in `walks`: the masters and shadows of a set in the order save, state, range.
"""


def runs(image):
    """What a read of such blocks prints: each block is given by the byte that fills it."""
    parts, place = ["data"], 0
    while place < len(image):
        end = place
        while end < len(image) and image[end] == image[place]:
            end += 1
        parts.append(f"{end - place}*{image[place]:02x}")
        place = end
    return " ".join(parts)


def case(words, statements, status=0):
    print(f"== {words}")
    for statement, answer in statements:
        print(f"> {statement}")
        print(answer)


def row_of_writes(skip, start, count):
    """Three writes that overlap, with a tear that is armed before them, and then a recovery and a read of each block."""
    puts = [(0, 4, 0x11), (2, 4, 0x22), (4, 3, 0x11)]
    blocks, stopped = [0] * 8, None
    said = [("volume p /v/a 64", "ok"), (f"arm p /v/a {skip} {start} {count}", "ok")]
    for place, (at, length, byte) in enumerate(puts):
        statement = f"write p /v/a {at} {length} {byte:02x}"
        if stopped:
            said.append((statement, "refused Down p"))
            continue
        torn = place == skip
        for i in range(length):
            if not torn or start <= i < start + count:
                blocks[at + i] = byte
        stopped = (at, length, byte) if torn else None
        said.append((statement, "refused Fault p" if torn else "ok"))
    if stopped:
        at, length, byte = stopped
        stand = "".join(f" {i}" for i in range(length) if blocks[at + i] == byte)
        said.append(("recover p", f"up p\ntorn /v/a {at}{stand}"))
    else:
        said.append(("recover p", "refused WrongState up"))
    said += [(f"read p /v/a {i} 1", f"data 1*{byte:02x}") for i, byte in enumerate(blocks)]
    case(f"three writes, and a tear behind {skip} of them that stores {count} blocks from block {start} on", said)


SET = "\ngroup /s/a plain session 0 at 0\nset /s/a left 0"


def walk(name, setting, write, disks, volumes, sets):
    """A tear at each write of each disk that one write makes, and at the one behind the last, which meets nothing."""
    volume, at, length, byte = write
    for disk, times in disks:
        for skip in range(times + 1):
            for count in (0, 1):
                stopped = skip < times
                last = disk == volume and skip + 1 == times
                stored = range(min(count, length) if last else 0) if stopped else range(length)
                said = [(statement, "ok") for statement in setting]
                said.append((f"arm p {disk} {skip} 0 {count}", "ok"))
                ask = f"write p {volume} {at} {length} {byte:02x}"

                def reads(some):
                    for of, image in volumes:
                        shown = list(image)
                        if of == volume:
                            for i in some:
                                shown[at + i] = byte
                        said.append((f"read p {of} 0 {len(image)}", runs(shown)))

                if stopped:
                    said.append((ask, "refused Fault p"))
                    said.append(("recover p", f"up p\ntorn {volume} {at}" + "".join(f" {i}" for i in stored) + sets))
                    reads(stored)
                    said.append((ask, "ok"))
                    reads(range(length))
                else:
                    said.append((ask, "ok"))
                    said.append(("recover p", "refused WrongState up"))
                    reads(stored)
                case(f"{name}, and a tear of {disk} behind {skip} writes that stores {count} blocks", said)


def blocks(*parts):
    return [byte for count, byte in parts for _ in range(count)]


def walks():
    volumes = ["volume p /v/a 128", "volume p /s/a 128", "volume p /c/a 64"]
    enabled = "iiadm p -e dep /v/a /s/a /c/a"
    zeros = blocks((128, 0))
    walk("a write to a plain volume", ["volume p /v/a 256"], ("/v/a", 100, 4, 0x55), [("/v/a", 1)], [("/v/a", blocks((256, 0)))], "")
    walk("a write to a master that saves two chunks", [*volumes, enabled], ("/v/a", 63, 2, 0x11),
         [("/v/a", 1), ("/s/a", 2), ("/c/a", 2), ("state:/s/a", 0)], [("/v/a", zeros), ("/s/a", zeros)], SET)
    walk("a write to a master in a chunk that is split", [*volumes, enabled, "write p /s/a 10 1 22"], ("/v/a", 0, 64, 0x33),
         [("/v/a", 1), ("/s/a", 0), ("/c/a", 0), ("state:/s/a", 0)], [("/v/a", zeros), ("/s/a", blocks((10, 0), (1, 0x22), (117, 0)))], SET)
    before = blocks((60, 0), (10, 0x11), (58, 0))
    walk("a write to a shadow that saves two chunks", [*volumes, "write p /v/a 60 10 11", enabled], ("/s/a", 62, 4, 0x22),
         [("/v/a", 0), ("/s/a", 3), ("/c/a", 2)], [("/v/a", before), ("/s/a", before)], SET)


for skip in range(4):
    for start, count in ((0, 0), (0, 1), (1, 2), (2, 1), (0, 9), (3, 9), (9, 9)):
        row_of_writes(skip, start, count)
walks()
