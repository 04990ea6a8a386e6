#!/usr/bin/env python3
"""Writes the images that the program crates census_* and repair_* read, into each one's file `stdin`.

    python3 crates/census_tool/images.py        (from the repository's root)

Each is made of the five-sector diskette of document 01 (M = 1, S = 5) by the changes that its
function's first line tells.
"""

SECTOR = 256


def at(track, sector):
    """Where a sector begins."""
    return (track * 5 + sector - 1) * SECTOR


def put(image, place, *bytes_):
    image[place:place + len(bytes_)] = bytes(bytes_)


def chain(image, sectors):
    """Sectors of track 1 linked in this order; the last links to 0,0."""
    for this, then in zip(sectors, sectors[1:] + [None]):
        put(image, at(1, this), *((1, then) if then else (0, 0)))


def free(image, sectors):
    chain(image, sectors)
    ends = (1, sectors[0], 1, sectors[-1]) if sectors else (0, 0, 0, 0)
    put(image, at(0, 3) + 29, *ends, 0, len(sectors))


def directory(image, sectors):
    """The directory goes on in these sectors of track 1."""
    put(image, at(0, 5), 1, sectors[0])
    chain(image, sectors)


def slot(image, number, name, sectors, sector=at(0, 5)):
    """A live slot of a sector of the directory, counted from 1: name, extension TXT, start, end and size."""
    place = sector + 16 + 24 * (number - 1)
    put(image, place, *(name.encode().ljust(8, b"\0") + b"TXT"))
    chain(image, sectors)
    put(image, place + 13, 1, sectors[0], 1, sectors[-1], 0, len(sectors))


def empty():
    """Nothing on it, all sectors in the free chain."""
    image = bytearray(2 * 5 * SECTOR)
    put(image, at(0, 3) + 38, 1, 5)
    free(image, [1, 2, 3, 4, 5])
    return image


def p4():
    """The file A.TXT, 253 times the byte 65, written and closed."""
    image = empty()
    free(image, [3, 4, 5])
    slot(image, 1, "A", [1, 2])
    put(image, at(1, 1) + 2, 0, 1, *[65] * 252)
    put(image, at(1, 2) + 2, 0, 2, 65)
    return image


def r41():
    """One byte short: the shape is not right."""
    return empty()[:-1]


def r42():
    """The directory's sector links to itself: it has no end."""
    image = empty()
    put(image, at(0, 5), 0, 5)
    return image


def r43():
    """Two live slots are named A.TXT."""
    image = empty()
    slot(image, 1, "A", [1])
    slot(image, 2, "A", [2])
    free(image, [3, 4, 5])
    return image


def holes():
    """A.TXT in slot 2, B.TXT in slot 5; the slots before and between them were never used."""
    image = empty()
    slot(image, 2, "A", [4, 1])
    slot(image, 5, "B", [3])
    free(image, [5, 2])
    return image


def grown():
    """The directory goes on in 1,4 and then in 1,2; A.TXT in slot 1, B.TXT in slot 12, C.TXT, of no sector, in slot 30."""
    image = empty()
    directory(image, [4, 2])
    slot(image, 1, "A", [3])
    slot(image, 2, "B", [1], at(1, 4))
    put(image, at(1, 2) + 232, *b"C\0\0\0\0\0\0\0TXT")
    free(image, [5])
    return image


def r44():
    """The free chain ends at 1,5 and says that it ends at 1,4."""
    image = empty()
    put(image, at(0, 3) + 31, 1, 4)
    return image


def r45():
    """The file A.TXT has two sectors and says that it has three."""
    image = p4()
    put(image, at(0, 5) + 16 + 17, 0, 3)
    return image


def r46():
    """Five sectors in chains, but 1,2 in two of them and 1,5 in none."""
    image = empty()
    slot(image, 1, "A", [1, 2])
    slot(image, 2, "B", [2])
    free(image, [3, 4])
    return image


def shared():
    """The files A.TXT and B.TXT share their last sector, 1,3."""
    image = empty()
    slot(image, 1, "A", [1, 3])
    slot(image, 2, "B", [2, 3])
    free(image, [4, 5])
    return image


def cycle():
    """The second sector of A.TXT links to its first; A.TXT says that it has 60,000, and byte 23 is set. B.TXT is in order."""
    image = empty()
    slot(image, 1, "A", [1, 2])
    put(image, at(1, 2), 1, 1)
    put(image, at(0, 5) + 16 + 17, *divmod(60000, 256), 2)
    slot(image, 2, "B", [4])
    free(image, [3, 5])
    return image


def long():
    """64,001 bytes."""
    return bytes(64001)


CENSUS = {
    "empty": empty, "p4": p4, "41": r41, "42": r42, "43": r43, "holes": holes, "grown": grown, "44": r44, "45": r45, "46": r46,
    "shared": shared, "long": long,
}

REPAIR = {"shared": shared, "cycle": cycle}

if __name__ == "__main__":
    for program, images in ("census", CENSUS), ("repair", REPAIR):
        for name, make in images.items():
            with open(f"crates/{program}_{name}/stdin", "wb") as f:
                f.write(make())
