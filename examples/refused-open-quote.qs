# A quote has to be closed on its line.
-SYSTEME- S.
LE == "GN.
-GRAPHE-
-1- LE + CHAT -2-.
-FIN-
