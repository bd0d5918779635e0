# French numerals from zero to 999,999, read as numbers: the other way of numerals-spoken.qs. "." ends a numeral. One that
# isn't spelled as it should be (DEUX CENTS MILLE) becomes no number.

# Where a numeral begins and ends, and what each word counts.
-SYSTEME- WORDS.
TEXT == START + BEGIN.
"." == STOP + BEGIN.
UN == UNITS(1).
DEUX == UNITS(2).
TROIS == UNITS(3).
QUATRE == UNITS(4).
CINQ == UNITS(5).
SIX == UNITS(6).
SEPT == UNITS(7).
HUIT == UNITS(8).
NEUF == UNITS(9).
DIX == TEEN(0).
ONZE == TEEN(1).
DOUZE == TEEN(2).
TREIZE == TEEN(3).
QUATORZE == TEEN(4).
QUINZE == TEEN(5).
SEIZE == TEEN(6).
VINGT == TEN(2).
TRENTE == TEN(3).
QUARANTE == TEN(4).
CINQUANTE == TEN(5).
SOIXANTE == TEN(6).

# From 1 to 99, as two digits. INNER is what may stand before MILLE, FINAL what may end a numeral; most are both.
-SYSTEME- COUNT.
UNITS(I*) == BOTH(0,I*).
TEEN(I*) == BOTH(1,I*).
TEEN(0) + UNITS(I*) == BOTH(1,I*) / I* -DANS- 7,8,9.
TEN(I*) == BOTH(I*,0).
TEN(I*) + ET + UNITS(1) == BOTH(I*,1).
TEN(I*) + UNITS(J*) == BOTH(I*,J*) / J* -HORS- 1.
TEN(6) + ET + TEEN(1) == BOTH(7,1).
TEN(6) + TEEN(I*) == BOTH(7,I*) / I* -HORS- 1.
TEN(6) + TEEN(0) + UNITS(I*) == BOTH(7,I*) / I* -DANS- 7,8,9.
UNITS(4) + VINGTS == FINAL(8,0).
UNITS(4) + TEN(2) == INNER(8,0).
UNITS(4) + TEN(2) + UNITS(I*) == BOTH(8,I*).
UNITS(4) + TEN(2) + TEEN(I*) == BOTH(9,I*).
UNITS(4) + TEN(2) + TEEN(0) + UNITS(I*) == BOTH(9,I*) / I* -DANS- 7,8,9.
BOTH(U*) == FINAL(U*).
BOTH(U*) == INNER(U*).

# From 1 to 999, as three digits.
A*(I*,J*) == A*(0,I*,J*) / A* -DANS- FINAL,INNER.
CENT + A*(I*,J*) == A*(1,I*,J*) / A* -DANS- FINAL,INNER.
CENT == BOTH(1,0,0).
UNITS(I*) + CENTS == FINAL(I*,0,0) / I* -HORS- 1.
UNITS(I*) + CENT == INNER(I*,0,0) / I* -HORS- 1.
UNITS(I*) + CENT + A*(J*,K*) == A*(I*,J*,K*) / A* -DANS- FINAL,INNER -ET- I* -HORS- 1.

# Whole numerals, as six digits.
BEGIN + ZÉRO + STOP == NUMBER(0).
BEGIN + FINAL(I*,J*,K*) + STOP == DIGITS(I*,J*,K*).
BEGIN + MILLE + STOP == DIGITS(1,0,0,0).
BEGIN + MILLE + FINAL(I*,J*,K*) + STOP == DIGITS(1,I*,J*,K*).
BEGIN + INNER(I*,J*,K*) + MILLE + STOP == DIGITS(I*,J*,K*,0,0,0) / -NON- I*,J* -DANS- 0 -OU- K* -HORS- 1.
BEGIN + INNER(I*,J*,K*) + MILLE + FINAL(L*,M*,N*) + STOP == DIGITS(I*,J*,K*,L*,M*,N*)
  / -NON- I*,J* -DANS- 0 -OU- K* -HORS- 1.
BEGIN + END == END.

# No zeros in front.
-SYSTEME- NUMBERS.
DIGITS(0,U*) == DIGITS(U*).
DIGITS(I*,U*) == NUMBER(I*,U*) / I* -HORS- 0.

# In the order of the text.
-SYSTEME- LAYOUT.
START + NUMBER(U*) == NUMBER(U*) + START.
START + END == END.

-GRAPHE-
-1- TEXT + ZÉRO + "." + SEPT + "." + DIX + SEPT + "." + VINGT + ET + UN + "." + SOIXANTE + ET + ONZE + "."
  + QUATRE + VINGTS + "." + QUATRE + VINGT + UN + "." + QUATRE + VINGT + DIX + SEPT + "." + CENT + "."
  + DEUX + CENTS + "." + DEUX + CENT + UN + "." + TROIS + CENT + QUATRE + VINGTS + "."
  + NEUF + CENT + QUATRE + VINGT + DIX + NEUF + "." + MILLE + "." + MILLE + NEUF + CENT + SOIXANTE + DIX + "."
  + QUATRE + VINGT + MILLE + "." + DEUX + CENT + MILLE + "."
  + DEUX + CENT + QUATRE + VINGT + MILLE + TROIS + CENTS + "." + SEPT + CENT + ONZE + MILLE + QUATRE + VINGT + ONZE + "."
  + NEUF + CENT + QUATRE + VINGT + DIX + NEUF + MILLE + NEUF + CENT + QUATRE + VINGT + DIX + NEUF + "." + END -2-.
-FIN-
