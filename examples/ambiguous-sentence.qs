# A French sentence with two readings: the little one breaks the ice, or the light breeze chills her.
-SYSTEME- READINGS.
LA == DET.
LA == PRON.
PETITE == ADJ(PETITE).
PETITE == N(PETITE).
BRISE == N(BRISE).
BRISE == V(BRISER).
GLACE == N(GLACE).
GLACE == V(GLACER).
DET + N(I*) == GN(I*).
DET + ADJ(I*) + N(J*) == GN(J*,I*).
V(I*) + GN(U*) == GV(I*,GN(U*)).
PRON + V(I*) == GV(I*,PRON).
GN(U*) + GV(V*) == P(GN(U*),GV(V*)).
-GRAPHE-
-1- LA + PETITE + BRISE + LA + GLACE -2-.
-FIN-
