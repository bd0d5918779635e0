# Each word can be read in two ways, so three words can be read in eight.
-SYSTEME- S.
A == B.
A == C.
-PHRASES-
A A A
