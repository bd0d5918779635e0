# -HORS-: no tree of the first list is in the second. Most French adjectives go behind their noun, and some don't.
-SYSTEME- ADJECTIVES.
ADJ(I*) + N(J*) == I* + J* / I* -DANS- PETIT,GRAND,BEAU.
ADJ(I*) + N(J*) == J* + I* / I* -HORS- PETIT,GRAND,BEAU.
-GRAPHE-
-1- ADJ(PETIT) + N(CHAT) + ET + ADJ(NOIR) + N(CHIEN) -2-.
-FIN-
