# Each grammar works on what the one before it left. The second one here sees no word.
-SYSTEME- WORDS.
LE == DET.
CHAT == N.
DORT == V.
-SYSTEME- PHRASES.
DET + N == GN.
GN + V == P.
CHAT == NEVER.
-GRAPHE-
-1- LE + CHAT + DORT -2-.
-FIN-
