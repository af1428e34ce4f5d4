// What a model checker proves of a memory, and what the proof of the core (step.vh) asks of one. Part of block_memory and of
// large_memory where FORMAL is defined. `hardware/prove` runs the proof.

    (* anyconst *) reg [12:0] rule_any; // a cell, chosen freely and kept: what holds of it holds of each
    wire [15:0] rule_cell = cells[rule_any];
    reg         rule_begun = 1'b0;      // a clock has passed
    reg         rule_missed;
    reg  [12:0] rule_asked;
    reg  [15:0] rule_then;

    always @(posedge clk) begin
        rule_begun <= 1'b1;
        rule_missed <= missed;
        rule_asked <= read_place;
        rule_then <= fill ? (fill_place == rule_any ? filled_cell : rule_cell)
                   : write && write_place == rule_any ? written : rule_cell;
    end

    always @* begin
        if (!fill) assert (!missed || write);                                  // only a write makes a read missed
        if (rule_begun) begin
            assert (rule_cell == rule_then);                                    // what is written stands there, and nothing else changes
            if (!rule_missed && rule_asked == rule_any) assert (given == rule_cell);    // what is given stands there
        end
    end
