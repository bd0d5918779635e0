-SYSTEME- READINGS.
A + B == X + Y.
A + B == Z.
-GRAPHE-
-1- A + B + C -2-.
-FIN-
