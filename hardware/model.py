"""The machine of docs/MACHINE.md in Python: what the core is compared with, instruction by instruction."""

MOVE = (0, 1, -2, -1)
PRINT, KEY, HALT = 0x4000, 0x4002, 0x4004
HALTED, OUTSIDE, INPUT_ENDED, STEPS_USED = 0, 1, 2, 3
ENDS = ("halted", "outside", "input ended", "steps used")


def signed(cell):
    return cell - 0x10000 if cell >= 0x8000 else cell


def flag(test):
    return 0xFFFF if test else 0


OPERATION = (
    lambda t, n, r, cell, depth: t,
    lambda t, n, r, cell, depth: n,
    lambda t, n, r, cell, depth: (t + n) & 0xFFFF,
    lambda t, n, r, cell, depth: t & n,
    lambda t, n, r, cell, depth: t | n,
    lambda t, n, r, cell, depth: t ^ n,
    lambda t, n, r, cell, depth: t ^ 0xFFFF,
    lambda t, n, r, cell, depth: flag(n == t),
    lambda t, n, r, cell, depth: flag(signed(n) < signed(t)),
    lambda t, n, r, cell, depth: n >> (t & 15),
    lambda t, n, r, cell, depth: (t - 1) & 0xFFFF,
    lambda t, n, r, cell, depth: r,
    lambda t, n, r, cell, depth: cell,
    lambda t, n, r, cell, depth: (n << (t & 15)) & 0xFFFF,
    lambda t, n, r, cell, depth: depth,
    lambda t, n, r, cell, depth: flag(n < t),
)


class Ended(Exception):
    """The run ends here, and the instruction changes nothing."""


class Machine:
    def __init__(self, memory, start, source):
        self.memory, self.start, self.source = list(memory), start, list(source)
        self.pc = self.t = self.data_at = self.return_at = 0
        self.data, self.returns = [0] * 32, [0] * 32
        self.printed = bytearray()
        self.made = self.taken = 0
        self.end = None

    def line(self):
        """The line of `j1 trace` before the next instruction, up to its text, in small letters."""
        code, n = self.memory[self.pc], self.data[self.data_at]
        made = "%d @%04x %04x t=%04x n=%04x r=%04x dsp=%02x rsp=%02x" % (
            self.made + 1, self.pc, code, self.t, n, self.returns[self.return_at], self.data_at, self.return_at)
        address = self.t & 0xFFFE
        if code >> 13 == 3 and code >> 8 & 15 == 12:
            made += " fetch %04x" % address
            if self.start <= address < 0x4000:
                made += " %04x" % self.memory[address // 2]
        if code >> 13 == 3 and code & 0x20:
            made += " store %04x %04x" % (address, n)
        return made

    def fetched(self, address, alone):
        if self.start <= address < 0x4000:
            return self.memory[address // 2]
        if address == KEY and alone:
            if self.taken == len(self.source):
                raise Ended(INPUT_ENDED, 0)
            self.taken += 1
            return self.source[self.taken - 1]
        raise Ended(OUTSIDE, address)

    def store(self, address, cell, alone):
        """Makes the store; the end that it brings, or None."""
        if self.start <= address < 0x4000:
            self.memory[address // 2] = cell
        elif address == PRINT and alone:
            self.printed.append(cell & 255)
        elif address == HALT and alone:
            return HALTED, cell & 255
        else:
            raise Ended(OUTSIDE, address)
        return None

    def instruction(self):
        code = self.memory[self.pc]
        pc, t, n, r = (self.pc + 1) & 0x1FFF, self.t, self.data[self.data_at], self.returns[self.return_at]
        new, end = t, None
        data_move = return_move = 0
        to_data = to_return = None
        if code >= 0x8000:
            new, data_move, to_data = code & 0x7FFF, 1, t
        elif code >= 0x6000:
            address = t & 0xFFFE
            fetches, stores = code >> 8 & 15 == 12, code & 0x20 != 0
            cell = self.fetched(address, not stores) if fetches else 0
            if stores:
                end = self.store(address, n, not fetches)
            new = OPERATION[code >> 8 & 15](t, n, r, cell, self.return_at * 256 + self.data_at)
            data_move, return_move = MOVE[code & 3], MOVE[code >> 2 & 3]
            to_data = t if code & 0x80 else None
            to_return = t if code & 0x40 else None
            if code & 0x1000:
                pc = r // 2 % 8192
        elif code >= 0x4000:
            return_move, to_return, pc = 1, 2 * pc, code & 0x1FFF
        elif code >= 0x2000:
            new, data_move = n, -1
            if t == 0:
                pc = code & 0x1FFF
        else:
            pc = code
        self.data_at, self.return_at = (self.data_at + data_move) % 32, (self.return_at + return_move) % 32
        if to_data is not None:
            self.data[self.data_at] = to_data
        if to_return is not None:
            self.returns[self.return_at] = to_return
        self.pc, self.t, self.end = pc, new, end

    def run(self, most, trace=None):
        """At most so many instructions; where there is a trace the lines of `j1 trace` go there."""
        while self.end is None and self.made < most:
            printed, taken = len(self.printed), self.taken
            if trace is not None:
                trace.append(self.line())
            try:
                self.instruction()
            except Ended as ended:
                self.end = ended.args
                break
            self.made += 1
            if trace is not None:
                trace += ["print %02x" % byte for byte in self.printed[printed:]]
                trace += ["take %02x" % byte for byte in self.source[taken:self.taken]]
        return self.end or (STEPS_USED, 0)
