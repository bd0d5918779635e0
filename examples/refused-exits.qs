# The graph has two nodes without an arc out of them.
-SYSTEME- S.
LE == DET.
-GRAPHE-
-1- LE -2-.
-1- LA -3-.
-FIN-
