# G is no letter of a variable.
-SYSTEME- S.
GN(G*) == P(G*).
-GRAPHE-
-1- LE + CHAT -2-.
-FIN-
