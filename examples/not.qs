# -NON- denies a condition. That not all of a list is feminine says less than that nothing of it is.
-SYSTEME- FEATURES.
GN(U*) == NOTALL(U*) / -NON- U* -DANS- FEM.
GN(U*) == NONE(U*) / U* -HORS- FEM.
-GRAPHE-
-1- GN(FEM) -3-.
-3- GN(FEM,PLUR) -4-.
-4- GN(MASC,PLUR) -2-.
-FIN-
