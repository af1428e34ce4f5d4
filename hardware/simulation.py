"""Simulations of the core and of the boards by Icarus Verilog or Verilator, and the program j1, for the comparison."""
import os
import re
import subprocess

import image_file
import model

HERE = os.path.dirname(os.path.abspath(__file__))
CELLS = "/usr/share/yosys/ice40/cells_sim.v"
BOARD = ["board.v", "uart.v", "j1.v"]
DESIGNS = {                                                 # a testbench, what is defined for it, and the files
    "block": ("testbench", [], ["testbench.v", "j1.v", "block_memory.v"]),
    "large": ("testbench", ["LARGE"], ["testbench.v", "j1.v", "large_memory.v"]),
    "flash": ("flash_testbench", [], ["flash_testbench.v", "flash.v", "flash_reader.v", "large_memory.v"]),
    "hx8k": ("line_testbench", [], ["line_testbench.v", "hx8k.v", "block_memory.v"] + BOARD),
    "up5k": ("line_testbench", ["UP5K"], ["line_testbench.v", "flash.v", "up5k.v", "large_memory.v", "flash_reader.v"] + BOARD),
}
QUIET_FINISH = """#include "verilated.h"
void vl_finish(const char*, int, const char*) { Verilated::threadContextp()->gotFinish(true); }
"""


class Different(Exception):
    """What differs, in words."""


def command_of(design, folder, verilator=False):
    """The command that runs a testbench that was built in a folder."""
    if verilator:
        return [folder + "/" + design + ".built/" + DESIGNS[design][0], "+verilator+rand+reset+2"]
    return ["vvp", "-n", folder + "/" + design]


def build(design, folder, verilator=False, verilog=HERE):
    """Builds a testbench in a folder; the command that runs it."""
    top, defines, files = DESIGNS[design]
    files = [verilog + "/" + name for name in files]
    defines = ["-D" + name for name in defines]
    if verilator:
        made = folder + "/" + design + ".built"
        os.makedirs(made, exist_ok=True)
        with open(made + "/finish.cpp", "w") as f:
            f.write(QUIET_FINISH)
        done = subprocess.run(["verilator", "--binary", "--timing", "-O3", "--x-assign", "unique", "--x-initial", "unique", "-Wno-fatal", "-Wno-lint",
                               "-CFLAGS", "-DVL_USER_FINISH", "--top-module", top, "-Mdir", made, "-o", top, made + "/finish.cpp"] + defines + files,
                              stdout=subprocess.PIPE, stderr=subprocess.STDOUT)
        if done.returncode:
            raise Different("verilator: " + done.stdout.decode("latin-1")[-500:])
    else:
        subprocess.run(["iverilog", "-g2001", "-o", folder + "/" + design] + defines + files, check=True)
    return command_of(design, folder, verilator)


def build_netlist(netlist, folder):
    """Builds the netlist of up5k, as it is placed, with the cells that yosys tells in Verilog."""
    subprocess.run(["iverilog", "-g2012", "-DNO_ICE40_DEFAULT_ASSIGNMENTS", "-DUP5K", "-DNETLIST", "-o", folder + "/netlist",
                    HERE + "/line_testbench.v", HERE + "/flash.v", netlist, CELLS], check=True)
    return ["vvp", "-n", folder + "/netlist"]


def written(path, content):
    with open(path, "wb") as f:
        f.write(content)
    return path


def cells_in(path):
    """The cells of a file of $writememh."""
    with open(path) as f:
        return [line.strip().lower() for line in f if not line.startswith("//")]


def bytes_printed(path):
    try:
        with open(path) as f:
            return bytes(int(line, 16) for line in f)
    except ValueError:
        raise Different("the simulation prints unknown bits")


def run_core(command, folder, memory, start, source, most, waits=0, traced=False):
    """The bytes printed, the end, the numbers of instructions and clocks, the trace and the memory at the end."""
    words = ["+image=" + written(folder + "/image.hex", image_file.hex_lines(memory).encode()), "+start=%x" % start,
             "+input=" + written(folder + "/input", source), "+n=%d" % most, "+prints=" + folder + "/prints",
             "+memory=" + folder + "/memory", "+end=" + folder + "/end"]
    if waits:
        words.append("+waits=%d" % waits)
    if traced:
        words.append("+trace=" + folder + "/trace")
    written(folder + "/end", b"")
    done = subprocess.run(command + words, stdin=subprocess.DEVNULL, stdout=subprocess.PIPE, stderr=subprocess.STDOUT, timeout=3600)
    with open(folder + "/end") as f:
        ended = f.read().strip()
    found = re.fullmatch(r"end (\w+) (\w+) instructions (\d+) clocks (\d+)", ended)
    if not found:
        raise Different("the simulation has no end: %s %s" % (ended, done.stdout.decode("latin-1").strip()[-100:]))
    try:
        end = (int(found.group(1)), int(found.group(2), 16))
    except ValueError:
        raise Different("the simulation ends with unknown bits: %s" % ended)
    if end[0] in (model.STEPS_USED, model.INPUT_ENDED):
        end = (end[0], 0)
    trace = None
    if traced:
        with open(folder + "/trace") as f:
            trace = f.read().split("\n")[:-1]
    return bytes_printed(folder + "/prints"), end, int(found.group(3)), int(found.group(4)), trace, cells_in(folder + "/memory")


def run_line(command, folder, file, source, bit=100, idle=1000000):
    """The bytes that the terminal receives, the lamps, and the number of clocks."""
    written(folder + "/prints", b"")
    done = subprocess.run(command + ["+image=" + file, "+input=" + written(folder + "/input", source), "+prints=" + folder + "/prints",
                                     "+bit=%d" % bit, "+idle=%d" % idle], stdin=subprocess.DEVNULL, stdout=subprocess.PIPE, timeout=3600)
    found = re.search(r"^end (\w) (\w) (\w) (\w) clocks (\d+)$", done.stdout.decode("latin-1"), re.M)
    if not found:
        raise Different("the simulation of the board has no end: %s" % done.stdout.decode("latin-1").strip()[-100:])
    return bytes_printed(folder + "/prints"), "".join(found.group(1, 2, 3, 4)), int(found.group(5))


class Program:
    """The program j1, which drives the proved simulator."""

    def __init__(self, path):
        self.path = path

    def call(self, words, source=b""):
        return subprocess.run([self.path] + words, input=source, stdout=subprocess.PIPE, stderr=subprocess.PIPE, timeout=3600)

    def has(self, command, words, folder):
        """Whether the program has the command: words of no command are answered with 1."""
        return self.call([command] + [folder + "/missing"] + words).returncode != 1

    def execute(self, file, source, most):
        """The bytes printed and the end, within so many instructions."""
        done = self.call(["exec", file, "--steps", str(most)], source)
        return done.stdout, end_of(done)

    def trace(self, file, source, most):
        """The lines of `j1 trace` without the texts of instructions, in small letters, and the end."""
        done = self.call(["trace", file, "--steps", str(most)], source)
        lines = done.stdout.decode("latin-1").split("\n")
        return [re.sub(r" (lit|jump|branch|call|alu|raw) .*", "", line).lower() for line in lines[:-1]], end_of(done)


def end_of(done):
    if done.returncode == 0:
        return model.HALTED, 0
    note = done.stderr.decode("latin-1")
    found = re.fullmatch(r"j1: (halted|outside|input ended|steps used)(?: (\d+))?\n", note)
    if not found or done.returncode not in (6, 7, 8, 9):
        raise Different("j1 answers %d: %s" % (done.returncode, note.strip()))
    return model.ENDS.index(found.group(1)), int(found.group(2) or 0)
