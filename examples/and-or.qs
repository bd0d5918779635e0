# -ET- binds tighter than -OU-; parentheses group otherwise. The first rule asks for a singular, or for a feminine plural;
# the second for a feminine of any number.
-SYSTEME- CHOICES.
GN(I*,J*) == FIRST(I*,J*) / I* -DANS- SING -OU- I* -DANS- PLUR -ET- J* -DANS- FEM.
GN(I*,J*) == SECOND(I*,J*) / (I* -DANS- SING -OU- I* -DANS- PLUR) -ET- J* -DANS- FEM.
-GRAPHE-
-1- GN(SING,MASC) -3-.
-3- GN(PLUR,FEM) -4-.
-4- GN(PLUR,MASC) -2-.
-FIN-
