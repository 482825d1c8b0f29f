"""Writes a log with a hole into an image: a first entry that never arrived, and a second one that is whole.

    ./splitfs mkfs IMAGE 64 4 16 16
    python3 examples/hole.py IMAGE
    ./splitfs tree IMAGE

Two threads wrote, each into a file of its own, when the power went. The thread of /x had claimed slot 0 of the log, and
nothing of its entry reached the medium; its write did not return. The thread of /y had claimed slot 1, and its entry was
durable; its write returned. So a mount looks at every slot, and does not stop at the first that is empty.

The places are those of docs/FORMAT.md for an image with these numbers: inode lines from byte 20,480 on, name lines from
24,576, log lines from 28,672, data blocks from block 8.
"""

import struct
import sys

INODES, NAMES, LOG, BLOCK, LINE = 20480, 24576, 28672, 4096, 64
FILE, STAGING = 2, 3
FIRST_FILE, SECOND_FILE, STAGING_FILE = 5, 6, 1
CHAIN, STAGED = 8, 9


def fnv_1a(data: bytes) -> int:
    check = 2166136261
    for byte in data:
        check = ((check ^ byte) * 16777619) % 2**32
    return check


def inode(kind: int, generation: int, size: int = 0, applied: int = 0, root: int = 0, extents: int = 0) -> bytes:
    return struct.pack("<B3xIQQII32x", kind, generation, size, applied, root, extents)


def name(parent: int, child: int, text: bytes) -> bytes:
    return struct.pack("<IIB7x48s", parent, child, len(text), text)


def chain(file_block: int, disk_block: int, count: int) -> bytes:
    """A chain block with one extent."""
    return struct.pack("<II8xIII4x", 0, 1, file_block, disk_block, count)


def entry(*, sequence: int, order: int, file: int, generation: int, file_block: int, count: int, staging: int,
          staging_block: int, staging_generation: int, size: int) -> bytes:  # fmt: skip
    """An entry of the log, with its check in front."""
    rest = struct.pack(
        "<BBHQQIIIIIIQ8x", 1, 1, count, sequence, order, file, generation, file_block,
        staging, staging_block, staging_generation, size,
    )
    return struct.pack("<I", fnv_1a(rest)) + rest


def main(path: str) -> None:
    with open(path, "r+b") as image:
        def put(place: int, data: bytes) -> None:
            image.seek(place)
            image.write(data)

        # /x and /y are empty files; staging file 1 has one block, with the byte 62.
        put(INODES + LINE * FIRST_FILE, inode(FILE, generation=1))
        put(INODES + LINE * SECOND_FILE, inode(FILE, generation=1))
        put(NAMES, name(0, FIRST_FILE, b"x"))
        put(NAMES + LINE, name(0, SECOND_FILE, b"y"))
        put(INODES + LINE * STAGING_FILE, inode(STAGING, generation=1, root=CHAIN, extents=1))
        put(BLOCK * CHAIN, chain(file_block=0, disk_block=STAGED, count=1))
        put(BLOCK * STAGED, b"\x62")
        # Slot 0 stays as it is. Slot 1: block 0 of /y is block 0 of the staging file, and /y has one byte.
        put(LOG + LINE, entry(
            sequence=2, order=1, file=SECOND_FILE, generation=1, file_block=0, count=1,
            staging=STAGING_FILE, staging_block=0, staging_generation=1, size=1,
        ))


if __name__ == "__main__":
    main(sys.argv[1])
