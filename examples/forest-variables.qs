# A forest variable, U* to Z*, stands for a list of trees, which may be empty. A coordination can be cut at each ET, and
# each way to cut it is a firing of its own; the way with the shorter front comes first.
-SYSTEME- CUTS.
COORD(U*,ET,V*) == FRONT(U*) + BACK(V*).
-GRAPHE-
-1- COORD(CHAT,ET,CHIEN,ET,SOURIS) -3-.
-3- COORD(ET,CHAT) -2-.
-FIN-
