# Where a grammar leaves no path from entry to exit, the grammars behind it aren't run.
-SYSTEME- OVERLAP.
A + B == X.
B + C == Y.
-SYSTEME- NEVER.
X == Z.
-GRAPHE-
-1- A + B + C -2-.
-FIN-
