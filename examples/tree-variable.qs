# A tree variable, I* to N*, stands for any one tree: a word or a whole phrase.
-SYSTEME- OBJECTS.
V(I*) + GN(J*) == GV(I*,J*).
-GRAPHE-
-1- V(VOIT) + GN(SOURIS) -3-.
-3- V(ENTEND) + GN(COORD(CHAT,ET,CHIEN)) -2-.
-FIN-
