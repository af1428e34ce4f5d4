: PAREN ." Lines of a session: ./j1 forth <examples/session.fs" CR ;
PAREN
1 2 + .
: SQ ( n -- n ) DUP * ;
7 SQ .
: STARS ( n -- ) BEGIN ?DUP WHILE [CHAR] * EMIT 1- REPEAT ;
5 STARS
: TABLE ( -- ) 6 1 DO CR I . I SQ . LOOP ;
TABLE
: COUNTER ( n -- ) CREATE , DOES> ( -- n ) DUP @ 1 ROT +! ;
10 COUNTER TICKET
TICKET . TICKET . TICKET .
: TWICE ( xt -- ) DUP >R EXECUTE R> EXECUTE ;
3 ' SQ TWICE .
XYZZY
: \ SOURCE >IN ! DROP ; IMMEDIATE
16 BASE ! FF DECIMAL . \ comments to the end of the line from here on
