# There is no word -OR-.
-SYSTEME- S.
LE == GN / LE -OR- LA.
-GRAPHE-
-1- LE + CHAT -2-.
-FIN-
