# Nouns and adjectives that agree, and those that don't: the features of each follow its word. A variable that stands
# twice can only ask for what is equal; the condition -EGAL- can be denied too.
-VERSION- 2.
-SYSTEME- AGREEMENT.
N(I*,U*) + ADJ(J*,V*) == GN(N(I*),ADJ(J*),U*) / U* -EGAL- V*.
N(I*,U*) + ADJ(J*,V*) == FAUTE(N(I*,U*),ADJ(J*,V*)) / -NON- U* -EGAL- V*.
-GRAPHE-
-1- N(MAISON,FEM,SING) + ADJ(BLANCHE,FEM,SING) + ET + N(MURS,MASC,PLUR) + ADJ(BLANC,MASC,SING) -2-.
-FIN-
