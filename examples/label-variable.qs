# A label variable, A* to F*, stands for one label. It carries the gender here, which has to be the same in both words,
# and stands for the root of a tree in the second rule.
-SYSTEME- GENDER.
DET(A*) + N(A*) == GN(A*).
B*(PLUR) == PLURAL(B*).
-GRAPHE-
-1- DET(FEM) + N(FEM) + DET(MASC) + N(FEM) + PRONOUN(PLUR) -2-.
-FIN-
