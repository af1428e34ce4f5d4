\ Sends 0 to 999 by link 0 of an array of cores.
: MAIN ( -- )  1000 0 DO I 16416 ! LOOP ;
