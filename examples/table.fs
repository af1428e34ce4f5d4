\ A table that is laid down while the source is read, and a word that is chosen by its execution token.

: SQUARES ( -- a )  [ HERE  0 ,  1 ,  2 2 * ,  3 3 * ,  4 4 * , ] LITERAL ;
: SHOW ( n -- )  DUP . ." squared is " CELLS SQUARES + @ . CR ;
: STARS ( n -- )  0 ?DO [CHAR] * EMIT LOOP CR ;
: EACH ( t -- )  5 0 DO I OVER EXECUTE LOOP DROP ;
: MAIN  ['] SHOW EACH  ['] STARS EACH  [ HEX ] FF [ DECIMAL ] . ;
