\ Takes two bytes of the input, prints each of them twice, and then ends the line.
: MAIN ( -- )
  KEY DUP EMIT EMIT
  KEY DUP EMIT EMIT
  CR ;
