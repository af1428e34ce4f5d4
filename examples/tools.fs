( Words for the prompt:  cat examples/tools.fs - | ./j1 forth ) QUIT
( Each line ends with QUIT, which has no reply: loading prints nothing. ) QUIT
: \ SOURCE >IN ! DROP ; IMMEDIATE QUIT
( Cells and flags. ) QUIT
: NIP SWAP DROP ; : TUCK SWAP OVER ; : <> = 0= ; : 0<> 0= 0= ; QUIT
: 0> 0 > ; : U> SWAP U< ; -1 CONSTANT TRUE 0 CONSTANT FALSE QUIT
: WITHIN ( u a b -- flag ) OVER - >R - R> U< ; QUIT
: HEX 16 BASE ! ; : ERASE ( a u -- ) 0 FILL ; QUIT
: .( [CHAR] ) WORD COUNT TYPE ; IMMEDIATE QUIT
: .R ( n u -- ) >R DUP ABS 0 <# #S ROT SIGN #> R> OVER - SPACES TYPE ; QUIT
: U.R ( u u -- ) >R 0 <# #S #> R> OVER - SPACES TYPE ; QUIT
( 16388 is the port that ends the run, and 16288 the last place of HERE. ) QUIT
: BYE 0 16388 ! ; : UNUSED ( -- u ) 16288 HERE - ; QUIT
( Behind HERE is room for 96 bytes: there .S and PICK put cells aside. ) QUIT
: PAD ( -- a ) HERE ALIGNED ; : ASIDE ( u -- a ) CELLS PAD + ; QUIT
: ALL-ASIDE ( .. -- ) BEGIN DEPTH WHILE DEPTH ASIDE ! REPEAT ; QUIT
: .ASIDE ( u -- ) 0 BEGIN 2DUP > WHILE 1+ DUP ASIDE @ . REPEAT 2DROP ; QUIT
: ALL-BACK >R BEGIN DEPTH R@ < WHILE DEPTH 1+ ASIDE @ REPEAT R> DROP ; QUIT
: .COUNT ( u -- ) [CHAR] < EMIT 0 U.R [CHAR] > EMIT SPACE ; QUIT
: .S DEPTH >R ALL-ASIDE R@ .COUNT R@ .ASIDE R> ALL-BACK ; QUIT
: SOME-ASIDE BEGIN DUP WHILE 1- SWAP OVER ASIDE ! REPEAT DROP ; QUIT
: SOME-BACK >R 0 BEGIN DUP ASIDE @ SWAP 1+ DUP R@ > UNTIL DROP R> DROP ; QUIT
: PICK ( .. u -- x ) DUP >R SOME-ASIDE DUP R@ ASIDE ! R> SOME-BACK ; QUIT
( At 8404 is the newest header: the older one, the code, the name. ) QUIT
: .NAME ( h -- ) DUP 6 + SWAP 4 + C@ TYPE SPACE ; QUIT
: COLUMN DUP 4 + C@ ROT + 1+ DUP 64 > IF CR DROP 0 THEN SWAP ; QUIT
: WORDS 0 8404 @ BEGIN DUP WHILE COLUMN DUP .NAME @ REPEAT 2DROP ; QUIT
: MARKER 8404 @ HERE CREATE , , DOES> DUP CELL+ @ 8404 ! @ HERE - ALLOT ; QUIT
( Structures. At 8636 are the LEAVEs of the loop that is open. ) QUIT
: AGAIN 0 POSTPONE LITERAL POSTPONE UNTIL ; IMMEDIATE QUIT
: NO-TURN POSTPONE 2DUP POSTPONE = POSTPONE IF POSTPONE >R POSTPONE >R ; QUIT
: ?DO NO-TURN HERE 0 , POSTPONE THEN POSTPONE DO 8636 ! ; IMMEDIATE QUIT
: CASE 0 ; IMMEDIATE : ENDOF POSTPONE ELSE ; IMMEDIATE QUIT
: OF 1+ POSTPONE OVER POSTPONE = POSTPONE IF POSTPONE DROP ; IMMEDIATE QUIT
: CLOSE-ALL BEGIN ?DUP WHILE 1- POSTPONE THEN REPEAT ; QUIT
: ENDCASE POSTPONE DROP CLOSE-ALL ; IMMEDIATE QUIT
( Names whose cell may change. An unknown one is no place to store at. ) QUIT
: BODY ( -- a ) ' >BODY DUP 10578 U< IF DROP PAD THEN ; QUIT
: VALUE ( x -- ) CREATE , DOES> @ ; QUIT
: DEFER CREATE ['] ABORT , DOES> @ EXECUTE ; QUIT
: TO BODY STATE @ IF POSTPONE LITERAL POSTPONE ! ELSE ! THEN ; IMMEDIATE QUIT
: IS POSTPONE TO ; IMMEDIATE QUIT
( From here on these faults come back to the prompt, with ABORT. ) QUIT
: NEED ( n -- ) DEPTH 1- > ABORT" too few cells" ; QUIT
: DIVISOR ( n -- n ) DUP 0= ABORT" division by zero" ; QUIT
: / 2 NEED DIVISOR / ; : MOD 2 NEED DIVISOR MOD ; QUIT
: /MOD 2 NEED DIVISOR /MOD ; QUIT
: */ 3 NEED DIVISOR */ ; : */MOD 3 NEED DIVISOR */MOD ; QUIT
: PLACE ( a -- a ) DUP 8192 - 8192 U< 0= ABORT" no such address" ; QUIT
: @ 1 NEED PLACE @ ; : C@ 1 NEED PLACE C@ ; QUIT
: ! 2 NEED PLACE ! ; : C! 2 NEED PLACE C! ; : +! 2 NEED PLACE +! ; QUIT
: ? ( a -- ) @ . ; QUIT
( Bytes in hexadecimal, 16 in a row behind their address. ) QUIT
: .BYTE ( c -- ) 0 <# # # #> TYPE SPACE ; QUIT
: .ROW ( a -- ) CR 0 <# # # # # #> TYPE SPACE ; QUIT
: .AT ( a u -- ) DUP 15 AND 0= IF 2DUP + .ROW THEN + C@ .BYTE ; QUIT
: .BYTES ( a u -- ) 0 DO DUP I .AT LOOP DROP ; QUIT
: .ALL BASE @ >R HEX ?DUP IF .BYTES ELSE DROP THEN R> BASE ! ; QUIT
: DUMP ( a u -- ) OVER C@ DROP 2DUP + 1- C@ DROP .ALL ; QUIT
.( Tools are loaded: WORDS names all, BYE leaves.)
