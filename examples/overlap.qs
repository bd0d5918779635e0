-SYSTEME- OVERLAP.
A + B == X.
B + C == Y.
-GRAPHE-
-1- A + B + C -2-.
-FIN-
