// What a model checker proves of the core: that each instruction it makes is the one that docs/MACHINE.md tells, for every
// state, every memory, every start of data space and whatever the ports do. Part of the module j1 where FORMAL is defined.
//
// The machine below is written apart from the core, from the page alone. It looks at the core's state and at the memory as it is
// before the instruction, and says what comes of it. `hardware/prove` runs the proof.

    // ---- one cell of memory and one place of each ring, chosen freely and kept: what holds of them holds of all

    (* anyconst *) reg  [12:0] step_any;
    (* anyconst *) reg  [4:0]  step_any_place;
    (* anyconst *) reg  [15:0] step_any_start;
    wire [15:0] data_any, return_any;   // the cells of the rings at that place,
    wire [15:0] data_top, return_top;   // and at their pointers

    // ---- a memory: what the core writes stands there, and what is given stands there where no read was missed (memory.vh)

    reg  [15:0] m_memory [0:8191];
    reg         m_missed;
    reg  [12:0] m_asked;
    wire [15:0] seen_any        = m_memory[step_any];
    wire [15:0] seen_at_address = m_memory[t[13:1]];
    wire [15:0] seen_at_pc      = m_memory[pc];
    wire [15:0] seen_asked      = m_memory[m_asked];

    always @(posedge clk) begin
        if (write) m_memory[write_place] <= written;
        m_missed <= missed;
        m_asked <= read_place;
    end

    // ---- the machine of docs/MACHINE.md: one instruction

    reg  [12:0] m_pc;                   // the state after it
    reg  [15:0] m_t;
    reg  [4:0]  m_data_at, m_return_at;
    reg         m_to_data, m_to_return; // whether a ring is written, at its new pointer
    reg  [15:0] m_for_return;           // what the return ring gets; the data ring gets the old T
    reg         m_stores, m_prints, m_takes, m_halts, m_is_outside;
    reg         m_fetches_port;         // a fetch that is not from data space
    reg  [15:0] m_cell;                 // what is fetched

    wire [15:0] m_n       = data_top;
    wire [15:0] m_r       = return_top;
    wire [15:0] m_code    = seen_at_pc;
    wire [15:0] m_address = t & 16'hFFFE;
    wire        m_is_data = m_address >= data_start && m_address <= 16'd16383;
    wire        m_fetch   = m_code[15:13] == 3'b011 && m_code[11:8] == 4'd12;
    wire        m_store   = m_code[15:13] == 3'b011 && m_code[5];

    function [4:0] moved(input [4:0] at, input [1:0] move);
        case (move)
            2'b00: moved = at;
            2'b01: moved = at + 5'd1;
            2'b10: moved = at - 5'd2;
            2'b11: moved = at - 5'd1;
        endcase
    endfunction

    always @* begin
        m_pc = pc + 13'd1;
        m_t = t;
        m_data_at = data_place;
        m_return_at = return_place;
        m_to_data = 1'b0;
        m_to_return = 1'b0;
        m_for_return = t;
        m_stores = m_store && m_is_data;
        m_prints = m_store && !m_fetch && m_address == 16'd16384;
        m_takes = m_fetch && !m_store && m_address == 16'd16386;
        m_halts = m_store && !m_fetch && m_address == 16'd16388;
        m_is_outside = (m_fetch && !m_is_data && !m_takes) || (m_store && !m_is_data && !m_prints && !m_halts);
        m_cell = m_takes ? {8'd0, in_byte} : seen_at_address;
        casez (m_code)
            16'b1???????????????: begin                         // literal
                m_t = m_code & 16'h7FFF;
                m_data_at = data_place + 5'd1;
                m_to_data = 1'b1;
            end
            16'b000?????????????: m_pc = m_code[12:0];          // jump
            16'b001?????????????: begin                         // branch
                m_t = m_n;
                m_data_at = data_place - 5'd1;
                if (t == 16'd0) m_pc = m_code[12:0];
            end
            16'b010?????????????: begin                         // call
                m_return_at = return_place + 5'd1;
                m_to_return = 1'b1;
                m_for_return = {2'b00, pc + 13'd1, 1'b0};
                m_pc = m_code[12:0];
            end
            16'b011?????????????: begin                         // ALU
                case (m_code[11:8])
                    4'd0:  m_t = t;
                    4'd1:  m_t = m_n;
                    4'd2:  m_t = t + m_n;
                    4'd3:  m_t = t & m_n;
                    4'd4:  m_t = t | m_n;
                    4'd5:  m_t = t ^ m_n;
                    4'd6:  m_t = 16'hFFFF - t;
                    4'd7:  m_t = m_n == t ? 16'hFFFF : 16'd0;
                    4'd8:  m_t = (m_n ^ 16'h8000) < (t ^ 16'h8000) ? 16'hFFFF : 16'd0;
                    4'd9:  m_t = m_n >> (t[3:0]);
                    4'd10: m_t = t - 16'd1;
                    4'd11: m_t = m_r;
                    4'd12: m_t = m_cell;
                    4'd13: m_t = m_n << (t[3:0]);
                    4'd14: m_t = {3'd0, return_place, 3'd0, data_place};
                    4'd15: m_t = m_n < t ? 16'hFFFF : 16'd0;
                endcase
                m_data_at = moved(data_place, m_code[1:0]);
                m_return_at = moved(return_place, m_code[3:2]);
                m_to_data = m_code[7];
                m_to_return = m_code[6];
                if (m_code[12]) m_pc = m_r[13:1];
            end
        endcase
    end

    // ---- what it says of the state after a clock in which an instruction is made; and that nothing changes in any other

    reg         step_begun = 1'b0;      // a clock has passed
    reg         was_reset, was_clearing;
    reg  [12:0] then_pc;
    reg  [15:0] then_t, then_any, then_data_any, then_return_any, then_value;
    reg  [4:0]  then_data_at, then_return_at;
    reg         then_stopped;
    reg  [1:0]  then_ending;

    wire        step_ends_outside = at_work && m_is_outside;
    wire        step_ends_dry     = at_work && m_takes && !m_is_outside && !in_valid && in_ended;

    always @(posedge clk) begin
        step_begun <= 1'b1;
        was_reset <= reset;
        was_clearing <= clearing;
        then_pc <= made ? m_pc : pc;
        then_t <= made ? m_t : t;
        then_data_at <= made ? m_data_at : clearing ? data_place + 5'd1 : data_place;
        then_return_at <= made ? m_return_at : clearing ? return_place + 5'd1 : return_place;
        then_data_any <= made && m_to_data && m_data_at == step_any_place ? t : data_any;
        then_return_any <= made && m_to_return && m_return_at == step_any_place ? m_for_return : return_any;
        then_any <= made && m_stores && m_address[13:1] == step_any ? m_n : seen_any;
        then_stopped <= stopped || (made && m_halts) || step_ends_outside || step_ends_dry;
        then_ending <= stopped ? ending : made && m_halts ? 2'd0 : step_ends_outside ? 2'd1 : step_ends_dry ? 2'd2 : ending;
        then_value <= stopped ? end_value : made && m_halts ? m_n & 16'h00FF : step_ends_outside ? m_address : end_value;
    end

    // The clocks since an instruction was made, or the start, in which both ports were ready.
    reg  [1:0]  step_clocks = 2'd0;
    always @(posedge clk) step_clocks <= reset || clearing || made || stopped || waits ? 2'd0 : step_clocks + 2'd1;

    // In a clock of the clearing, whether the place has been cleared: they are cleared from 1 on, and place 0 last.
    wire        step_cleared = step_any_place != 5'd0 && step_any_place <= data_place;

    always @* begin
        assume (data_start == step_any_start);
        assume (data_start >= 16'd4096 && data_start <= 16'd16000 && !data_start[0]);
        assume (!missed || write);
        if (!step_begun) assume (reset);
        if (step_begun && !m_missed) assume (given == seen_asked);

        if (step_begun) begin
            // What the memory has given is what stands in it, and what the rings show is their cells at their pointers.
            if (phase == INSTRUCTION) assert (!m_missed && m_asked == pc && given == seen_at_pc);
            if (phase == DATA) assert (!m_missed && m_asked == m_address[13:1] && held == seen_at_pc && m_fetch && m_is_data);
            if (at_work) assert (n == m_n && r == m_r);
            assert (phase <= STOPPED);

            // Reset, and the clearing of the rings behind it; then the machine stands at its start.
            if (was_reset) assert (clearing);
            if (clearing) begin
                assert (pc == 13'd0 && t == 16'd0 && !stopped);
                assert (data_place == return_place && (was_reset ? data_place == 5'd0 : was_clearing && data_place != 5'd0));
                if (step_cleared) assert (data_any == 16'd0 && return_any == 16'd0);
            end
            if (was_clearing && !clearing) begin
                assert (pc == 13'd0 && t == 16'd0 && data_place == 5'd0 && return_place == 5'd0 && !stopped);
                assert (data_any == 16'd0 && return_any == 16'd0 && n == 16'd0 && r == 16'd0);
            end

            assert (seen_any == then_any);
            if (!was_reset) begin
                assert (pc == then_pc && t == then_t && data_place == then_data_at && return_place == then_return_at);
                if (!was_clearing) assert (data_any == then_data_any && return_any == then_return_any);
                assert (stopped == then_stopped);
                if (stopped) assert (ending == then_ending);
                if (stopped && ending != 2'd2) assert (end_value == then_value);
            end

            // An instruction is made once, whole, and no other makes an access; the end is no instruction but at the halt port.
            if (made) assert (at_work && !m_is_outside && !(m_takes && !in_valid));
            assert ((out_valid && out_ready && !reset) == (made && m_prints));
            if (out_valid) assert (out_byte == m_n[7:0]);
            assert ((in_ready && in_valid && !reset) == (made && m_takes));

            // It takes at most three clocks where the ports are ready: it is asked for, it is there, its data is there.
            if (phase == ASKED) assert (step_clocks == 2'd0);
            if (phase == INSTRUCTION) assert (step_clocks <= 2'd1);
            if (phase == DATA) assert (step_clocks <= 2'd2);
            if (at_work && !asks) assert (made || waits || step_ends_outside || step_ends_dry);
        end
    end
