# Patterns stand inside patterns as deep as the trees do: a sentence becomes passive.
-SYSTEME- PASSIVE.
P(GN(U*),GV(V(I*),GN(W*))) == P(GN(W*),GV(EST,PARTICIPE(I*)),PAR(GN(U*))).
-GRAPHE-
-1- P(GN(LE,CHAT),GV(V(MANGER),GN(LA,SOURIS))) -2-.
-FIN-
