# A side has more than 16 trees.
-SYSTEME- S.
LE + LE + LE + LE + LE + LE + LE + LE + LE + LE + LE + LE + LE + LE + LE + LE + LE == P.
-GRAPHE-
-1- LE + CHAT -2-.
-FIN-
