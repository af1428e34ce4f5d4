\ Prints the digits from 0 to 9, and then quotient and remainder of a division, rounded down.
: DIGITS ( n -- )  0 ?DO I . LOOP CR ;
: MAIN ( -- )  10 DIGITS  -7 2 /MOD . . ;
