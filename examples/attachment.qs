# To what does a prepositional phrase belong? "Marie regarde l'homme dans le parc avec le télescope" has five
# readings: each of the two phrases may say something of what is before it, as long as no two of these ties cross.
#
# GN is a noun phrase (groupe nominal), GP a prepositional one, GV a verb phrase, P a sentence.

-SYSTEME- WORDS.
A* == GN(A*) / A* -DANS- MARIE,PAUL.
A* == V(A*) / A* -DANS- REGARDE,MANGE,CONNAÎT.
A* == DET(A*) / A* -DANS- L',LE,LA,UNE.
A* == N(A*) / A* -DANS- HOMME,PARC,TÉLESCOPE,PIZZA,FOURCHETTE,OLIVES,FILLE,VILLE.
A* == PREP(A*) / A* -DANS- DANS,AVEC,DE.

# All readings. A GN may take a GP behind it, and so may a GV.
-SYSTEME- READINGS.
DET(I*) + N(J*) == GN(J*).
N(OLIVES) == GN(OLIVES).
PREP(I*) + GN(U*) == GP(I*,GN(U*)).
GN(U*) + GP(V*) == GN(U*,GP(V*)) / U* -HORS- MARIE,PAUL.
V(I*) + GN(U*) == GV(I*,GN(U*)).
GV(U*) + GP(V*) == GV(U*,GP(V*)).
GN(I*) + GV(U*) == P(I*,GV(U*)).

# Readings that make no sense are marked. One eats with a fork and not with olives, and a pizza has olives and no
# fork; a telescope is looked through, and no park has one; DE says something of a noun, not of these verbs.
-SYSTEME- SENSE.
P(I*,GV(U*,GP(AVEC,GN(OLIVES)),V*)) == NONSENSE.
P(I*,GV(J*,GN(PIZZA,GP(AVEC,GN(FOURCHETTE))),V*)) == NONSENSE.
P(I*,GV(J*,GN(K*,GP(DANS,GN(PARC,GP(AVEC,GN(U*))))),V*)) == NONSENSE.
P(I*,GV(J*,GN(U*),GP(DANS,GN(PARC,GP(AVEC,GN(V*)))),W*)) == NONSENSE.
P(I*,GV(U*,GP(DE,GN(V*)),W*)) == NONSENSE.

# A sentence takes the full stop behind it. Where none takes it, NONSENSE would stay; so where one does, NONSENSE goes.
-SYSTEME- CHOICE.
P(U*) + "." == SENTENCE(U*).

-GRAPHE-
-1- MARIE + REGARDE + L' + HOMME + DANS + LE + PARC + AVEC + LE + TÉLESCOPE + "." -2-.
-2- PAUL + MANGE + UNE + PIZZA + AVEC + UNE + FOURCHETTE + "." -3-.
-3- MARIE + MANGE + UNE + PIZZA + AVEC + OLIVES + "." -4-.
-4- PAUL + CONNAÎT + LA + FILLE + DE + LA + VILLE + "." -5-.
-FIN-
