#!/usr/bin/env python3
"""pages.py OUT: writes the image of the example of format 3 in docs/SPEC.md, from what stands there and from nothing else."""
import struct
import sys

S, P, F, N, B, n = 32, 1, 4, 64, 64, 8
REST = 8 * N + S * (12 + n // 8) + 8 * S * n          # node table, segments, summaries
PAGES = (REST + 4095) // 4096
META = 12288 + 8192 * PAGES
NONE = 0xffffffff
image = bytearray(META + S * n * B)


def put(at, *numbers):
    struct.pack_into(f'<{len(numbers)}I', image, at, *numbers)


def head(slot, version, total, logs, changes):
    at = 4096 + 4096 * slot
    put(at, version, total, *[x for log in logs for x in log])
    put(at + 56, len(changes), 0)                      # then a map of 544 zeros: copy 0 of each page
    for k, (word, eight) in enumerate(changes):
        put(at + 608 + 12 * k, word)
        image[at + 612 + 12 * k:at + 620 + 12 * k] = eight
    put(at + 3584, version)


def words(changed):
    """The words of eight bytes in which these bytes of a rest of zeros lie."""
    rest = bytearray(REST)
    for at, piece in changed:
        rest[at:at + len(piece)] = piece
    return [(w, rest[8 * w:8 * w + 8].ljust(8, b'\0')) for w in range((REST + 7) // 8) if any(rest[8 * w:8 * w + 8])]


def block(address):
    return META + B * (address - 1)


# The superblock.
image[0:8] = b'F2SEG001'
put(8, 3, 0, S, P, F, N)
# Version 1, the new volume: each log in a segment of its own, and nothing else.
head(1, 1, 0, [(k, 0) for k in range(6)], [])
# Version 2: inode 1 in block 9 of segment 1, its two blocks, 33 and 34, in segment 4. The pages are those of version 1, zeros.
sit, ssa = 8 * N, 8 * N + S * (12 + n // 8)
changed = [
    (8 * 0, struct.pack('<II', 1, 9)),                                  # NAT, node 1
    (sit + 13 * 1, struct.pack('<IQB', 1, 0, 0b1)),                     # SIT, segment 1
    (sit + 13 * 4, struct.pack('<IQB', 2, 0, 0b11)),                    # SIT, segment 4
    (ssa + 8 * (9 - 1), struct.pack('<II', 1, NONE)),                   # SSA, block 9
    (ssa + 8 * (33 - 1), struct.pack('<IIII', 1, 0, 1, 1)),             # SSA, blocks 33 and 34
]
head(0, 2, 3, [(0, 0), (1, 1), (2, 0), (3, 0), (4, 2), (5, 0)], words(changed))
# The inode: two blocks long, a file; then its addresses, nodes and numbers.
put(block(9), 2, 0, 33, 34, 0)
put(block(9) + B - 24, 1, 1, 0)
image[block(33):block(33) + B] = b'\x41' * B
image[block(34):block(34) + B] = b'\x42' * B
open(sys.argv[1], 'wb').write(image)
