# A French noun phrase with agreement: its words have to have one gender (A*) and one number (B*).
-SYSTEME- WORDS.
LE == DET(MASC,SING).
LES == DET(MASC,PLUR).
LES == DET(FEM,PLUR).
PETITE == ADJ(PETIT,FEM,SING).
PETITES == ADJ(PETIT,FEM,PLUR).
SOURIS == N(SOURIS,FEM,SING).
SOURIS == N(SOURIS,FEM,PLUR).
-SYSTEME- PHRASES.
DET(A*,B*) + ADJ(I*,A*,B*) + N(J*,A*,B*) == GN(J*,I*,A*,B*).
-GRAPHE-
-1- LES + PETITES + SOURIS -2-.
-2- LE + PETITE + SOURIS -3-.
-FIN-
