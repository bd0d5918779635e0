# A single = is no token.
-SYSTEME- S.
LE = GN.
-GRAPHE-
-1- LE + CHAT -2-.
-FIN-
