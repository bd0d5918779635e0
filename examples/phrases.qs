# The noun phrases of noun-phrase.qs, a line of words for each. Every line is a graph of its own.
-SYSTEME- WORDS.
LE == DET(MASC,SING).
LES == DET(MASC,PLUR).
LES == DET(FEM,PLUR).
PETITE == ADJ(PETIT,FEM,SING).
PETITES == ADJ(PETIT,FEM,PLUR).
SOURIS == N(SOURIS,FEM,SING).
SOURIS == N(SOURIS,FEM,PLUR).
-SYSTEME- PHRASES.
DET(A*,B*) + ADJ(I*,A*,B*) + N(J*,A*,B*) == GN(J*,I*,A*,B*).
-PHRASES-
LES PETITES SOURIS
LE PETITE SOURIS
