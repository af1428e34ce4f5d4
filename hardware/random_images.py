"""Random images for the comparison, each from a number, and images for the edges of memory."""
import random

PRINT, KEY, HALT = 0x4000, 0x4002, 0x4004


def file_of(start, code, data):
    """The bytes of the image file, as docs/FORMATS.md has it."""
    def two(n):
        return bytes((n & 255, n >> 8))
    head = b"J1IM" + (two(1) if start == 8192 else two(2) + two(start))
    return head + two(len(code)) + two(len(data)) + b"".join(two(cell) for cell in code) + bytes(data)


class Random:
    """A random image: pieces of code, in code space and in data space, that jump to each other."""

    def __init__(self, seed):
        self.random = random.Random("image %d" % seed)
        r = self.random
        self.start = r.choice([8192, 8192, 4096, 16000, 2 * r.randint(2048, 8000)])
        self.first = self.start // 2                        # the first cell of data space
        self.code_cells = r.randint(8, min(self.first, 120))
        self.data_cells = r.randint(8, min(8192 - self.first, 120))
        self.wild = r.random() < 0.15
        code = self.filled(0, self.code_cells)
        data = self.filled(self.first, self.data_cells)
        self.code = code
        self.data = bytes(byte for cell in data for byte in (cell & 255, cell >> 8))
        if r.random() < 0.3 and self.data:
            self.data = self.data[:-1]
        self.input = bytes(r.randrange(256) for _ in range(r.choice([0, 3, 40, 400])))
        self.file = file_of(self.start, self.code, self.data)

    def place(self):
        """A cell to go to."""
        r = self.random
        if r.random() < 0.6:
            return r.randrange(self.code_cells)
        return self.first + r.randrange(self.data_cells)

    def address(self):
        """An address to fetch from or to store at, mostly in data space."""
        r = self.random
        chance = r.random()
        if chance < 0.86:
            return self.start + r.randrange(2 * self.data_cells)
        if chance < 0.98:
            return r.choice([self.start, self.start + 1, 0x3FFE, 0x3FFF, r.randrange(self.start, 0x4000)])
        return r.choice([self.start - 1, self.start - 2, 0x4000, 0x4002, 0x4004, 0x4006, 0x4020, 0x7FFE, 0])

    def alu(self):
        """An ALU cell with no access of memory, and sometimes with bit 4."""
        r = self.random
        while True:
            cell = 0x6000 | r.randrange(0x1000) & ~0x0020 & 0xFFFF
            if r.random() < 0.9:
                cell &= ~0x0010
            if cell >> 8 & 15 != 12:
                return cell

    def piece(self, here):
        """The cells of a piece that begins at this cell."""
        r = self.random
        lit = 0x8000
        kind = r.choices(["literal", "alu", "table", "fetch", "store", "both", "print", "show", "key", "branch", "call", "return", "jump",
                          "self", "patch", "halt", "edge", "any"],
                         [14, 30, 12, 8, 6, 4, 4, 3, 1.2, 5, 3, 3, 1.5, 2, 1, 0.1, 0.1, 4 if self.wild else 0.2])[0]
        if kind == "literal":
            return [lit | r.choice([0, 1, 2, 0x7FFF, 0x4000, r.randrange(0x8000), r.randrange(32)])]
        if kind == "alu":
            return [self.alu()]
        if kind == "table":
            return [r.choice([0x6081, 0x6103, 0x6180, 0x6181, 0x6147, 0x6B8D, 0x6B81, 0x6003, 0x6203, 0x6303, 0x6403, 0x6503, 0x6600, 0x6703,
                              0x6803, 0x6903, 0x6A00, 0x6D03, 0x6E81, 0x6F03])]
        if kind == "fetch":
            return [lit | self.address(), 0x6C00 | r.choice([0, 0x80, 0x40, 0x81, 0x47, 0x8D, 3, 2])]
        if kind == "store":
            return [lit | self.address(), 0x6020 | r.choice([0, 3, 0x103, 0x100, 0x80, 0x40, 2, 0x47, 0xA03])]
        if kind == "both":
            return [lit | self.address(), 0x6C20 | r.choice([0, 3, 0x80, 0x81, 0x40, 2, 0x8D])]
        if kind == "print":
            return [lit | PRINT, 0x6023, 0x6103]
        if kind == "show":                                  # prints T and the depth, byte for byte
            return [0x6081, lit | PRINT, 0x6023, 0x6103, 0x6081, lit | 8, 0x6903, lit | PRINT, 0x6023, 0x6103,
                    0x6E81, 0x6081, lit | PRINT, 0x6023, 0x6103, lit | 8, 0x6903, lit | PRINT, 0x6023, 0x6103]
        if kind == "key":
            return [lit | KEY, 0x6C00]
        if kind == "branch":
            return [lit | r.choice([0, 0, 1, 0x7FFF]), 0x2000 | self.place()] if r.random() < 0.5 else [0x2000 | self.place()]
        if kind == "call":
            return [0x4000 | self.place()]
        if kind == "return":
            return [r.choice([0x700C, 0x700C, 0x7000 | r.randrange(0x1000) & 0xF0CF & ~0x20])] if r.random() < 0.4 else [
                lit | 2 * self.place(), 0x6147, 0x700C]
        if kind == "jump":
            return [self.place()]
        if kind == "self" and here >= self.first:           # stores into the instruction behind the store
            cell = r.choice([self.alu(), 0x6081, lit | r.randrange(0x8000)])
            make = [lit | cell & 0x7FFF] if cell < 0x8000 else [lit | ~cell & 0x7FFF, 0x6600]
            at = here + len(make) + 2
            if r.random() < 0.5:
                return make + [lit | 2 * at, r.choice([0x6023, 0x6020, 0x6C20]), 0x6000]
            # by a jump
            at = self.first + r.randrange(self.data_cells)
            return make + [lit | 2 * at, 0x6147, 0x6B81, r.choice([0x7023, 0x702F, 0x702C])] if r.random() < 0.5 else (
                [lit | 2 * at, 0x6147] + make + [lit | 2 * at, 0x702F])
        if kind == "patch":                                 # stores a new cell somewhere in data space
            cell = r.choice([self.alu(), 0x4000 | self.place(), lit | r.randrange(0x8000), r.randrange(0x10000) if self.wild else 0x6000])
            make = [lit | cell & 0x7FFF] if cell < 0x8000 else [lit | ~cell & 0x7FFF, 0x6600]
            return make + [lit | self.address(), 0x6023, 0x6103]
        if kind == "halt":
            return [lit | r.randrange(256), lit | HALT, r.choice([0x6023, 0x6020, 0x6123])]
        if kind == "edge":                                  # an access at or beside a port, or at the fence
            at = r.choice([PRINT, KEY, HALT, KEY, HALT + 2, self.start - 2, self.start - 1, 0x4020]) + r.randrange(2)
            return [lit | at, r.choice([0x6C00, 0x6020, 0x6C20, 0x6023, 0x6C23])]
        if kind == "any":
            return [r.randrange(0x10000)]
        return [0x6000]

    def filled(self, first, cells):
        """So many cells of pieces, and at the end a jump back."""
        made = []
        while len(made) < cells:
            made += self.piece(first + len(made))
        del made[cells - 1:]
        return made + [self.place() | self.random.choice([0x0000, 0x4000])]


def edges():
    """An image for each kind of access at each address around the fence and the ports: the name, the image file and the input."""
    made = []
    for start in (8192, 4098):
        for address in (0, start - 2, start - 1, start, start + 1, 0x3FFE, 0x3FFF, PRINT, PRINT + 1, KEY, KEY + 1, HALT, HALT + 1, HALT + 2,
                        0x4020, 0x403E, 0x7FFE, 0x8000, 0xC000, 0xFFFF):
            at = [0x8000 | address] if address < 0x8000 else [0x8000 | ~address & 0x7FFF, 0x6600]
            for kind, cell in (("fetch", 0x6C00), ("store", 0x6020), ("store, and N", 0x6123), ("both", 0x6C20)):
                show = [0x6081, 0x8000 | PRINT, 0x6023, 0x6103]                 # prints T, and then halts with a cell of more than a byte
                code = [0x9234] + at + [cell] + show + [0x9234, 0x8000 | HALT, 0x6023]
                for source in (b"AB", b"") if address & 0xFFFE == KEY else (b"AB",):
                    made.append(("%s at %04x, data space from %04x, %d bytes" % (kind, address, start, len(source)),
                                 file_of(start, code, b"\x21\x43\x65\x87"), source))
    return made
