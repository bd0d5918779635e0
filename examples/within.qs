# -DANS-: each tree of the first list is in the second. An empty list is in every list.
-SYSTEME- TRANSITIVE.
V(I*) + GN(J*) == GV(I*,J*) / I* -DANS- VOIT,MANGE.
ADV(U*) == FREE / U* -DANS- HIER,DEMAIN.
-GRAPHE-
-1- V(MANGE) + GN(SOURIS) + V(DORT) + GN(SOURIS) -3-.
-3- ADV + ADV(HIER,DEMAIN) + ADV(HIER,ICI) -2-.
-FIN-
