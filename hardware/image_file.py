"""Image files, as docs/FORMATS.md has them: read apart from the program.

    python3 hardware/image_file.py IMG OUT      writes the memory of an image as 8,192 lines for $readmemh, and prints where data space begins
"""
import sys

CELLS = 8192


class Bad(Exception):
    """No image file; its first bad offset."""


def number(data, at, least, most, step=1, but=None):
    """The number of two bytes at a place, where it is allowed; else the first byte that is in no allowed number."""
    allowed = [n for n in range(least, most + 1, step) if n != but]
    if at >= len(data):
        raise Bad(at)
    if not any(n & 255 == data[at] for n in allowed):
        raise Bad(at)
    if at + 1 >= len(data):
        raise Bad(at + 1)
    value = data[at] | data[at + 1] << 8
    if value not in allowed:
        raise Bad(at + 1)
    return value


def read_image(data, ends=True):
    """The data start, the code cells and the data bytes of an image file; with anything behind it where its end is not asked for."""
    for offset, allowed in enumerate([b"J", b"1", b"I", b"M", b"\x01\x02", b"\x00"]):
        if offset >= len(data) or data[offset] not in allowed:
            raise Bad(offset)
    at, start = 6, CELLS
    if data[4] == 2:
        start = number(data, at, 4096, 16000, 2, CELLS)
        at += 2
    cells = number(data, at, 0, start // 2)
    size = number(data, at + 2, 0, 16384 - start)
    at += 4
    if ends and len(data) != at + 2 * cells + size:
        raise Bad(min(len(data), at + 2 * cells + size))
    data += b"\xff" * (at + 2 * cells + size - len(data))
    code = [data[at + 2 * i] | data[at + 2 * i + 1] << 8 for i in range(cells)]
    return start, code, data[at + 2 * cells:at + 2 * cells + size]


def memory_of(start, code, data):
    """The 8,192 cells: code from cell 0 on, bytes from the data start on, the low byte at the even address, and 0."""
    memory = [0] * CELLS
    memory[:len(code)] = code
    for i, byte in enumerate(data):
        memory[(start + i) // 2] |= byte << 8 * (i % 2)
    return memory


def hex_lines(memory):
    return "".join("%04X\n" % cell for cell in memory)


if __name__ == "__main__":
    with open(sys.argv[1], "rb") as image:
        try:
            content = read_image(image.read())
        except Bad as bad:
            sys.exit("image_file: offset %d: BadImage" % bad.args[0])
    with open(sys.argv[2], "w") as hex_file:
        hex_file.write(hex_lines(memory_of(*content)))
    print("%04X" % content[0])
