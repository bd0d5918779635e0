# A weather bulletin, from English to French, in three grammars.

# The words and idioms, with what French has for them: nouns with gender and number.
-SYSTEME- DICTIONARY.
SNOW == N(NEIGE,FEM,SING).
WINDS == N(VENTS,MASC,PLUR).
FLURRIES == N("AVERSES DE NEIGE",FEM,PLUR).
LOW == N(MINIMUM,MASC,SING).
HEAVY == ADJ(ABONDANT).
STRONG == ADJ(FORT).
LIGHT == ADJ(LÉGER).
A + FEW == QUANTITY(QUELQUES).
NORTHWEST == DIRECTION("NORD-OUEST").
EAST == DIRECTION(EST).
BEGINNING == PARTICIPLE(DÉBUTANT).
TONIGHT == TIME(CETTE,NUIT).
TUESDAY == TIME(MARDI).
NEAR == ABOUT.
MINUS == LESS.
5 == NUMBER(5).
"." == STOP.

# The phrases, in the order of English on the left and of French on the right.
-SYSTEME- PHRASES.
ADJ(I*) + N(J*,A*,B*) == GN(J*,A*,B*,ADJ(I*)).
ADJ(I*) + DIRECTION(J*) + N(K*,A*,B*) == GN(K*,A*,B*,ADJ(I*),DIRECTION(J*)).
QUANTITY(I*) + N(J*,A*,B*) == GN(I*,J*).
N(I*,A*,B*) + ABOUT == GN(I*,PRÈS,DE).
LESS + NUMBER(I*) == VALUE(MOINS,I*).
GN(U*) + PARTICIPLE(I*) + TIME(V*) + STOP == S(GN(U*),I*,V*).
GN(U*) + TIME(V*) + STOP == S(GN(U*),V*).
GN(U*) + VALUE(V*) + STOP == S(GN(U*),V*).
GN(U*) + STOP == S(GN(U*)).

# The words of French, with agreement, contraction and elision.
-SYSTEME- GENERATION.
S(GN(I*,A*,B*,ADJ(J*),U*),V*) == I* + ADJ(J*,A*,B*) + WORDS(U*,V*) / A* -DANS- MASC,FEM.
S(GN(U*),V*) == WORDS(U*,V*) / U* -HORS- MASC,FEM.
WORDS(I*,U*) == I* + WORDS(U*).
WORDS == ".".
ADJ(ABONDANT,FEM,SING) == ABONDANTE.
ADJ(FORT,MASC,PLUR) == FORTS.
ADJ(LÉGER,MASC,PLUR) == LÉGERS.
DIRECTION(I*) == DE + LE + I* / I* -HORS- EST,OUEST.
DIRECTION(I*) == DE + "L'" + I* / I* -DANS- EST,OUEST.
DE + LE == DU.

-GRAPHE-
-1- HEAVY + SNOW + BEGINNING + TONIGHT + "."
  + STRONG + NORTHWEST + WINDS + "."
  + A + FEW + FLURRIES + TUESDAY + "."
  + LIGHT + EAST + WINDS + "."
  + LOW + NEAR + MINUS + 5 + "." -2-.
-FIN-
