# A path comes back to the node where it began.
-SYSTEME- S.
LE == DET.
-GRAPHE-
-1- LE + CHAT -2-.
-2- DORT -1-.
-FIN-
