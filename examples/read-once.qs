# A sentence with five readings: who is on the hill, and who has the telescope? This grammar asks only whether it is a
# sentence. It is marked, so an arc that stands already isn't added again: what two readings have in common is read once.
-VERSION- 2.
-SYSTEME- WORDS.
JE == GN.
VOIS == V.
UN == DET.
LA == DET.
HOMME == N.
COLLINE == N.
TELESCOPE == N.
SUR == PREP.
AVEC == PREP.
-SYSTEME- GROUPS -UNIQUE-.
DET + N == GN.
PREP + GN == GP.
GN + GP == GN.
V + GN == GV.
GV + GP == GV.
GN + GV == P.
-GRAPHE-
-1- JE + VOIS + UN + HOMME + SUR + LA + COLLINE + AVEC + UN + TELESCOPE -2-.
-FIN-
