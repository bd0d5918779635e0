# A comment, of a deck that shows each kind of word; the program doesn't read it yet.
-VERSION- 2.
-SYSTEME- NAMED.
A*(U*12) + "a # and a "" in quotes" == BA(A*,U*12(I*)) / U*12 -DANS- 20,ÉTÉ
  -ET- (I* -HORS- L'EST -OU- -NON- A* -EGAL- B).
-UNIQUE- G* == "left open
-GRAPHE-
-1- A + B -2-.
-FIN-
