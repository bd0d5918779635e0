# What was said? A speech recogniser gives a lattice: for each stretch of sound, all words that sound like it. A
# grammar with gender, number and a little sense keeps the paths that are sentences; where several are left, the sound
# alone doesn't tell.
#
#   ELLE A UN VERRE VERT      a green glass, or a green worm, VER; VERS, a line of verse, has no colour
#   LEUR FILLE CHANTE         one daughter or several: nothing in the sound tells, but all words agree
#   L'ATTENTE EST LONGUE      a wait or a tent, LA TENTE, may be long; an aunt, LA TANTE, isn't

# Where a sentence begins and ends. Words, with gender and number; a verb has a number alone.
-SYSTEME- WORDS.
TEXT == BEGIN.
"." == END + BEGIN.
ELLE == PRON(ELLE,SING).
ELLES == PRON(ELLES,PLUR).
A* == HAVE(A*,SING) / A* -DANS- A,AS.
UN == DET(UN,MASC,SING).
LEUR == DET(LEUR,MASC,SING).
LEUR == DET(LEUR,FEM,SING).
LEURS == DET(LEURS,MASC,PLUR).
LEURS == DET(LEURS,FEM,PLUR).
LA == DET(LA,FEM,SING).
L' == DET(L',FEM,SING).
L' == DET(L',MASC,SING).
A* == N(A*,MASC,SING) / A* -DANS- VERRE,VER,VERS,VERT.
A* == N(A*,MASC,PLUR) / A* -DANS- VERRES,VERTS.
VERS == N(VERS,MASC,PLUR).
VERS == PREP(VERS).
À == PREP(À).
A* == N(A*,FEM,SING) / A* -DANS- AILE,FILLE,TANTE,TENTE,ATTENTE.
FILLES == N(FILLES,FEM,PLUR).
VERT == ADJ(VERT,MASC,SING).
VERTS == ADJ(VERTS,MASC,PLUR).
LONGUE == ADJ(LONGUE,FEM,SING).
LONGUES == ADJ(LONGUES,FEM,PLUR).
CHANTE == V(CHANTE,SING).
CHANTENT == V(CHANTENT,PLUR).
A* == BE(A*,SING) / A* -DANS- EST,ES.
ET == CONJ(ET).

# Sentences. Variables that are repeated make the words agree; conditions say what has a colour, and what is long.
-SYSTEME- SENTENCES.
DET(I*,A*,B*) + N(J*,A*,B*) == GN(A*,B*,I*,J*).
DET(I*,A*,B*) + N(J*,A*,B*) + ADJ(K*,A*,B*) == GN(A*,B*,I*,J*,K*) / J* -HORS- VERS,VERT,VERTS.
PRON(I*,B*) + HAVE(J*,B*) + GN(A*,C*,U*) == P(I*,J*,U*) / J* -HORS- AS.
GN(A*,B*,U*) + V(I*,B*) == P(U*,I*).
GN(A*,B*,U*) + BE(I*,B*) + ADJ(J*,A*,B*) == P(U*,I*,J*) / I* -HORS- ES -ET- -NON- TANTE -DANS- U*.
BEGIN + P(U*) + END == SENTENCE(U*).
BEGIN + STOP == STOP.

-GRAPHE-
-1- TEXT -2-.
-2- ELLE -3-.
-2- ELLES -3-.
-2- AILE -3-.
-3- A -4-.
-3- AS -4-.
-3- À -4-.
-4- UN -5-.
-4- HEIN -5-.
-5- VERRE -6-.
-5- VERRES -6-.
-5- VER -6-.
-5- VERS -6-.
-5- VERT -6-.
-6- VERT -7-.
-6- VERTS -7-.
-6- VERRE -7-.
-6- VERS -7-.
-7- "." -8-.
-8- LEUR -9-.
-8- LEURS -9-.
-9- FILLE -10-.
-9- FILLES -10-.
-10- CHANTE -11-.
-10- CHANTENT -11-.
-11- "." -12-.
-12- LA + TANTE -13-.
-12- LA + TENTE -13-.
-12- L' + ATTENTE -13-.
-13- EST -14-.
-13- ES -14-.
-13- ET -14-.
-14- LONGUE -15-.
-14- LONGUES -15-.
-15- "." + STOP -16-.
-FIN-
