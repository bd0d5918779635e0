# Numbers from 0 to 999,999, written in French words. A number is a list of its digits.
# The other way stands in numerals-heard.qs, which reads what this one writes.

# A number is filled with zeros up to six digits.
-SYSTEME- DIGITS.
NUMBER(I*) == NUMBER(0,I*).
NUMBER(I*,J*) == NUMBER(0,I*,J*).
NUMBER(I*,J*,K*) == NUMBER(0,I*,J*,K*).
NUMBER(I*,J*,K*,L*) == NUMBER(0,I*,J*,K*,L*).
NUMBER(I*,J*,K*,L*,M*) == NUMBER(0,I*,J*,K*,L*,M*).

# Thousands and the rest. MILLE has no UN before it, and what stands before it is INNER: QUATRE VINGTS and CENTS lose
# their S.
-SYSTEME- THOUSANDS.
NUMBER(0,0,0,0,0,0) == BEGIN + ZÉRO + ".".
NUMBER(0,0,0,U*) == BEGIN + FINAL(U*) + "." / -NON- U* -DANS- 0.
NUMBER(0,0,1,0,0,0) == BEGIN + MILLE + ".".
NUMBER(0,0,1,U*) == BEGIN + MILLE + FINAL(U*) + "." / -NON- U* -DANS- 0.
NUMBER(I*,J*,K*,0,0,0) == BEGIN + INNER(I*,J*,K*) + MILLE + "." / -NON- I*,J* -DANS- 0 -OU- K* -HORS- 0,1.
NUMBER(I*,J*,K*,U*) == BEGIN + INNER(I*,J*,K*) + MILLE + FINAL(U*) + "."
  / (-NON- I*,J* -DANS- 0 -OU- K* -HORS- 0,1) -ET- -NON- U* -DANS- 0.

# Hundreds. CENT has no UN before it; CENTS has its S where nothing follows.
-SYSTEME- HUNDREDS.
A*(0,I*,J*) == A*(I*,J*) / A* -DANS- FINAL,INNER.
A*(1,0,0) == CENT / A* -DANS- FINAL,INNER.
A*(1,I*,J*) == CENT + A*(I*,J*) / A* -DANS- FINAL,INNER -ET- -NON- I*,J* -DANS- 0.
FINAL(I*,0,0) == UNITS(I*) + CENTS / I* -HORS- 0,1.
INNER(I*,0,0) == UNITS(I*) + CENT / I* -HORS- 0,1.
A*(I*,J*,K*) == UNITS(I*) + CENT + A*(J*,K*) / A* -DANS- FINAL,INNER -ET- I* -HORS- 0,1 -ET- -NON- J*,K* -DANS- 0.

# Tens. 70 and 90 count on from 60 and 80; ET stands before UN and ONZE, but not behind 80.
-SYSTEME- TENS.
A*(0,I*) == UNITS(I*) / A* -DANS- FINAL,INNER.
A*(1,I*) == TEEN(I*) / A* -DANS- FINAL,INNER.
A*(I*,0) == TEN(I*) / A* -DANS- FINAL,INNER -ET- I* -DANS- 2,3,4,5,6.
A*(I*,1) == TEN(I*) + ET + UNITS(1) / A* -DANS- FINAL,INNER -ET- I* -DANS- 2,3,4,5,6.
A*(I*,J*) == TEN(I*) + UNITS(J*) / A* -DANS- FINAL,INNER -ET- I* -DANS- 2,3,4,5,6 -ET- J* -HORS- 0,1.
A*(7,1) == TEN(6) + ET + TEEN(1) / A* -DANS- FINAL,INNER.
A*(7,I*) == TEN(6) + TEEN(I*) / A* -DANS- FINAL,INNER -ET- I* -HORS- 1.
FINAL(8,0) == UNITS(4) + VINGTS.
INNER(8,0) == UNITS(4) + VINGT.
A*(8,I*) == UNITS(4) + VINGT + UNITS(I*) / A* -DANS- FINAL,INNER -ET- I* -HORS- 0.
A*(9,I*) == UNITS(4) + VINGT + TEEN(I*) / A* -DANS- FINAL,INNER.

-SYSTEME- WORDS.
UNITS(1) == UN.
UNITS(2) == DEUX.
UNITS(3) == TROIS.
UNITS(4) == QUATRE.
UNITS(5) == CINQ.
UNITS(6) == SIX.
UNITS(7) == SEPT.
UNITS(8) == HUIT.
UNITS(9) == NEUF.
TEEN(0) == DIX.
TEEN(1) == ONZE.
TEEN(2) == DOUZE.
TEEN(3) == TREIZE.
TEEN(4) == QUATORZE.
TEEN(5) == QUINZE.
TEEN(6) == SEIZE.
TEEN(I*) == DIX + UNITS(I*) / I* -DANS- 7,8,9.
TEN(2) == VINGT.
TEN(3) == TRENTE.
TEN(4) == QUARANTE.
TEN(5) == CINQUANTE.
TEN(6) == SOIXANTE.

# The words of a numeral, gathered from its end.
-SYSTEME- NUMERALS.
"." == NUMERAL.
A* + NUMERAL(U*) == NUMERAL(A*,U*) / A* -HORS- BEGIN.
BEGIN + NUMERAL(U*) == SPOKEN(U*).

# In the order of the text: a head goes along the numerals, one in each round.
-SYSTEME- LAYOUT.
START + SPOKEN(U*) == SPOKEN(U*) + START.
START + END == END.

-GRAPHE-
-1- START + NUMBER(0) + NUMBER(7) + NUMBER(1,7) + NUMBER(2,1) + NUMBER(7,1) + NUMBER(8,0) + NUMBER(8,1) + NUMBER(9,7)
  + NUMBER(1,0,0) + NUMBER(2,0,0) + NUMBER(2,0,1) + NUMBER(3,8,0) + NUMBER(9,9,9) + NUMBER(1,0,0,0) + NUMBER(1,9,7,0)
  + NUMBER(8,0,0,0,0) + NUMBER(2,0,0,0,0,0) + NUMBER(2,8,0,3,0,0) + NUMBER(7,1,1,0,9,1) + NUMBER(9,9,9,9,9,9) + END -2-.
-FIN-
