\ Defining words, variables and execution tokens: an array counts how often each digit stands in the squares of 0 to 99.
: ARRAY ( n -- )  CREATE CELLS ALLOT DOES> ( n a -- a )  SWAP CELLS + ;
10 ARRAY TALLY
VARIABLE COUNTED
: COUNT-DIGIT ( u -- )  TALLY 1 SWAP +!  1 COUNTED +! ;
: COUNT-DIGITS ( u -- )  BEGIN 0 10 UM/MOD SWAP COUNT-DIGIT DUP 0= UNTIL DROP ;
: SHOW-DIGIT ( u -- )  DUP . TALLY @ . CR ;
' COUNT-DIGITS CONSTANT BY-SQUARES
' SHOW-DIGIT CONSTANT BY-DIGITS
: SQUARES ( -- )  100 0 DO I I * BY-SQUARES EXECUTE LOOP ;
: MAIN ( -- )  SQUARES  10 0 DO I BY-DIGITS EXECUTE LOOP  COUNTED @ . CR ;
