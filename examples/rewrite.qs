-SYSTEME- S.
A == B.
-GRAPHE-
-1- A -2-.
-FIN-
