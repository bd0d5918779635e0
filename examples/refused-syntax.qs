# A forest variable stands inside a tree only.
-SYSTEME- S.
U* + CHAT == GN.
-GRAPHE-
-1- LE + CHAT -2-.
-FIN-
