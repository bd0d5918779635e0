# J* isn't in the left side.
-SYSTEME- S.
GN(I*) == P(I*,J*).
-GRAPHE-
-1- LE + CHAT -2-.
-FIN-
