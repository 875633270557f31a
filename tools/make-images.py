#!/usr/bin/env python3
"""Writes the four example images that plandiff is shown and tested on.

Use: python3 tools/make-images.py FOLDER

The files are the same bytes on every run. docs/images.md says what each is for.
The header is packed here from its table of bits, by code that shares nothing with the crates.
"""

import sys
from pathlib import Path

BLOCK_BYTES = 512
LOG_SLOTS = 32

# Versions of a block. The first plan is version 1.
STALE = 0
FIRST = 1
SECOND = 2
THIRD = 3


def content(address, version):
    """The block of an address: byte j is (16 * address + version + j) % 256.

    So the first byte, in two hexadecimal digits, shows the address and the version.
    """
    return bytes((16 * address + version + j) % 256 for j in range(BLOCK_BYTES))


def raised(block, offset):
    """The same block, but its byte at the offset is one higher (255 becomes 0)."""
    out = bytearray(block)
    out[offset] = (out[offset] + 1) % 256
    return bytes(out)


def header(n, addresses):
    """The header as bits, most significant first: each field is written out as text of 0 and 1."""
    assert 1 <= n <= 4096 and len(addresses) <= LOG_SLOTS and all(0 <= a < n for a in addresses)
    bits = format(0xB10C, "016b")  # mark
    bits += format(1, "04b")  # layout
    bits += format(n - 1, "012b")
    bits += format(len(addresses), "06b")  # count
    bits += "00"
    for address in addresses:
        bits += format(address, "012b")
    bits = bits.ljust(8 * BLOCK_BYTES, "0")
    return int(bits, 2).to_bytes(BLOCK_BYTES, "big")


def first_plan(n):
    """The home blocks of the first plan, by address."""
    return [content(a, FIRST) for a in range(n)]


def store(home, log):
    """A whole store: header, 32 log slots, home blocks.

    `home` has a block for each address; `log` has (address, block), oldest first.
    A slot that is not in use holds a stale block, which no look may show.
    """
    slots = [block for _, block in log]
    for i in range(len(log), LOG_SLOTS):
        slots.append(content(i % 10, STALE))
    return b"".join([header(len(home), [a for a, _ in log])] + slots + home)


def settled():
    return store(first_plan(10), [])


def unsettled():
    """The first plan too, but all of it stands in a full log, and every home block is stale.

    Slots 1 to 22 hold older writes. Slots 23 to 32 hold the plan, in no order of the addresses.
    """
    home = [content(a, STALE) for a in range(10)]
    older = [(i % 10, content(i % 10, STALE)) for i in range(22)]
    newest = [(a, content(a, FIRST)) for a in (4, 3, 8, 0, 5, 7, 1, 9, 2, 6)]
    return store(home, older + newest)


def revised():
    """The first plan, and then three transactions of three blocks each, all still in the log."""
    log = [
        (3, content(3, SECOND)),
        (4, content(4, SECOND)),
        (5, content(5, SECOND)),
        (0, content(0, SECOND)),
        (7, raised(content(7, FIRST), 300)),
        (9, raised(content(9, FIRST), 511)),
        (3, content(3, THIRD)),
        (4, content(4, SECOND)),
        (5, content(5, FIRST)),  # back to the first plan: no difference is left
    ]
    return store(first_plan(10), log)


def longer():
    """The first plan with two addresses more."""
    return store(first_plan(12), [])


def main():
    if len(sys.argv) != 2:
        sys.exit("usage: make-images.py FOLDER")
    folder = Path(sys.argv[1])
    folder.mkdir(parents=True, exist_ok=True)
    for make in (settled, unsettled, revised, longer):
        (folder / (make.__name__ + ".img")).write_bytes(make())


if __name__ == "__main__":
    main()
