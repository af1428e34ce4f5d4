\ Adds up 1,000 cells that come by link 0 of an array of cores, and prints the sum modulo 65536.
: MAIN ( -- )  0 1000 0 DO 16416 @ + LOOP U. ;
