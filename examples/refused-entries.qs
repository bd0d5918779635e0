# The graph has two nodes without an arc into them.
-SYSTEME- S.
LE == DET.
-GRAPHE-
-1- LE -3-.
-2- LA -3-.
-FIN-
