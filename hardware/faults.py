"""Faults of the core and of both memories, which `prove --faults` and `plant` plant one at a time: a name, what is wrong, the text that is
changed, what stands there then, and the module where it is not the core's."""
import sys

FAULTS = [
    ("stores_first", "an instruction that fetches and stores fetches what it stores",
     "result = takes ? {8'd0, in_byte} : given;", "result = takes ? {8'd0, in_byte} : stores ? n : given;"),
    ("asks_once", "a read that is missed is not asked for again",
     "missed ? ASKED : INSTRUCTION", "INSTRUCTION"),
    ("less_unsigned", "the signed comparison is unsigned",
     "$signed(n) < $signed(t)", "n < t"),
    ("moves_forward", "the move 10 is +2",
     "data_place + {{3{data_move[1]}}, data_move}", "data_place + {{3{data_move == 2'b11}}, data_move}"),
    ("writes_before", "T to N writes at the old pointer",
     ".clk(clk), .place(moves ? next_data_place : data_place)", ".clk(clk), .place(moves && !(made && puts_data) ? next_data_place : data_place)"),
    ("calls_itself", "a call keeps its own place",
     "!clearing ? {2'b00, following, 1'b0}", "!clearing ? {2'b00, pc, 1'b0}"),
    ("returns_twice_as_far", "R to PC does not halve",
     "returns ? r[13:1]", "returns ? r[12:0]"),
    ("data_one_later", "the fence lacks the first cell of data space",
     "address >= data_start", "address > data_start"),
    ("no_fence_above", "addresses from 16384 on that are no port are data",
     "in_data   = address >= data_start && address[15:14] == 2'b00", "in_data   = address >= data_start && address[15:6] != 10'b0100000000"),
    ("shifts_further", "a shift takes five bits",
     "result = n >> t[3:0];", "result = n >> t[4:0];"),
    ("prints_at_once", "a print does not wait",
     "(prints && !out_ready)", "1'b0"),
    ("prints_while_waiting", "a fetch of a byte does not wait",
     "(takes && !in_valid && !in_ended)", "1'b0"),
    ("takes_and_stores", "a store at the port of the input is no fault where a byte is fetched",
     "takes     = fetches && !stores && address == KEY_PORT", "takes     = fetches && address == KEY_PORT"),
    ("depth_turned", "the pointers of the depth are exchanged",
     "{3'd0, return_place, 3'd0, data_place}", "{3'd0, data_place, 3'd0, return_place}"),
    ("branch_keeps", "a branch does not take its flag",
     "is_branch ? 2'b11", "is_branch ? 2'b00"),
    ("branch_on_true", "a branch is taken at a flag that is not 0",
     "is_branch && t == 16'd0", "is_branch && t != 16'd0"),
    ("literal_keeps_its_bit", "a literal has 16 bits",
     "is_lit ? {1'b0, insn[14:0]}", "is_lit ? insn"),
    ("halt_changes_nothing", "a store at the halt port ends the run before its instruction",
     "&& !waits;", "&& !waits && !halts;"),
    ("status_of_a_cell", "the status has 16 bits",
     "end_value <= {8'd0, n[7:0]}", "end_value <= n"),
    ("odd_addresses", "bit 0 of an address counts",
     "address   = {t[15:1], 1'b0}", "address   = t"),
    ("half_the_memory", "pc has 12 bits",
     "following = pc + 13'd1", "following = {1'b0, pc[11:0] + 12'd1}"),
    ("outside_counts", "an outside access is made",
     "&& !asks && !outside &&", "&& !asks &&"),
    ("stack_of_31", "the data pointer steps over place 31",
     "data_place + {{3{data_move[1]}}, data_move}", "data_place + {{3{data_move[1]}}, data_move} + (data_place == 5'd30 && data_move == 2'b01)"),
    ("bit_4_returns", "bit 4 is not ignored",
     "returns  = is_alu && insn[12]", "returns  = is_alu && (insn[12] || insn[4])"),
    ("ring_one_behind", "N is read from the ring where it was put in the clock before",
     "top = was_put ? kept : read", "top = read"),
    ("rings_not_cleared", "the data ring is not cleared",
     ".put(clearing || (made && puts_data))", ".put(made && puts_data)"),
    ("place_31_not_cleared", "the clearing ends one place early",
     "clearing && next_data_place == 5'd0", "clearing && next_data_place == 5'd31"),
    ("block_misses_less", "the block RAM says at place 0 alone that it misses a read",
     "missed = write && read_place == write_place", "missed = write && read_place == write_place && read_place == 13'd0", "block_memory"),
    ("large_misses_less", "the large RAM reads where it should write",
     "missed = fill || write", "missed = fill || (write && read_place == write_place)", "large_memory"),
]


def module_of(fault):
    """The module that the fault is in, which is that of the file's name."""
    return fault[4] if len(fault) > 4 else "j1"


def changed(text, fault):
    """The text of the module with the fault in."""
    name, _, old, new = fault[:4]
    if text.count(old) != 1:
        sys.exit("faults: %s: the text to change stands %d times" % (name, text.count(old)))
    return text.replace(old, new)
