\ Prints the digits from 0 to 9 and ends the line.
J1 1
CODE
        lit 0030                \ the byte of 0
next:   dup
        call :emit
        lit 0001
        +
        dup
        lit 003A                \ behind the byte of 9
        =
        branch :next            \ until they are the same
        drop
        lit 000A
        call :emit
        lit 0000                \ the run ends as Halted(0)
        lit 4004
        alu T N->[T] d-1
emit:   lit 4000                \ the port that prints
        alu T N->[T] d-1
        drop
        exit
DATA
END
