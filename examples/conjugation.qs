# French verbs in six persons. A verb and a tense give six arcs beside each other, from JE to ILS.
#
# The language doesn't look inside of a word, so a form is a stem and an ending: AIM and ONS stand for "aimons".
# Sounds decide about spelling (mangeons, commençons, j'aime), and each such rule asks for the ending that follows.

# A verb has a class and its stem; from a class comes what its tenses are made from.
-SYSTEME- VERBS.
AIMER == VERB(ER,AIM).
MANGER == VERB(ER,MANG).
COMMENCER == VERB(ER,COMMENC).
FINIR == VERB(IR,FIN).
VENDRE == VERB(RE,VEND).
ÊTRE == VERB(ÊTRE,ÊT).
AVOIR == VERB(AVOIR,AV).
ALLER == VERB(ALLER,ALL).

# A verb and a tense fan out into the six persons, with their pronouns.
-SYSTEME- PERSONS.
VERB(U*) + TENSE(I*) == FORM(JE,I*,U*).
VERB(U*) + TENSE(I*) == FORM(TU,I*,U*).
VERB(U*) + TENSE(I*) == FORM(IL,I*,U*).
VERB(U*) + TENSE(I*) == FORM(NOUS,I*,U*).
VERB(U*) + TENSE(I*) == FORM(VOUS,I*,U*).
VERB(U*) + TENSE(I*) == FORM(ILS,I*,U*).

# A compound tense: the present of AVOIR or of ÊTRE, and the participle, which behind ÊTRE agrees.
-SYSTEME- COMPOUND.
FORM(A*,PERFECT,ER,I*) == FORM(A*,PRESENT,AVOIR,AV) + PARTICIPLE(I*,É).
FORM(A*,PERFECT,IR,I*) == FORM(A*,PRESENT,AVOIR,AV) + PARTICIPLE(I*,I).
FORM(A*,PERFECT,RE,I*) == FORM(A*,PRESENT,AVOIR,AV) + PARTICIPLE(I*,U).
FORM(A*,PERFECT,ÊTRE,I*) == FORM(A*,PRESENT,AVOIR,AV) + PARTICIPLE(I*,É).
FORM(A*,PERFECT,AVOIR,I*) == FORM(A*,PRESENT,AVOIR,AV) + PARTICIPLE(EU,"").
FORM(A*,PERFECT,ALLER,I*) == FORM(A*,PRESENT,ÊTRE,ÊT) + PARTICIPLE(I*,É) / A* -DANS- JE,TU,IL.
FORM(A*,PERFECT,ALLER,I*) == FORM(A*,PRESENT,ÊTRE,ÊT) + PARTICIPLE(I*,ÉS) / A* -DANS- NOUS,VOUS,ILS.

# Stems and endings: a pronoun, a stem, an ending. Where a verb is irregular the whole form is the stem.
-SYSTEME- ENDINGS.
# the present of the three classes
FORM(A*,PRESENT,ER,I*) == WORD(A*,I*,E) / A* -DANS- JE,IL.
FORM(TU,PRESENT,ER,I*) == WORD(TU,I*,ES).
FORM(ILS,PRESENT,ER,I*) == WORD(ILS,I*,ENT).
FORM(A*,PRESENT,IR,I*) == WORD(A*,I*,IS) / A* -DANS- JE,TU.
FORM(IL,PRESENT,IR,I*) == WORD(IL,I*,IT).
FORM(NOUS,PRESENT,IR,I*) == WORD(NOUS,I*,ISSONS).
FORM(VOUS,PRESENT,IR,I*) == WORD(VOUS,I*,ISSEZ).
FORM(ILS,PRESENT,IR,I*) == WORD(ILS,I*,ISSENT).
FORM(A*,PRESENT,RE,I*) == WORD(A*,I*,S) / A* -DANS- JE,TU.
FORM(IL,PRESENT,RE,I*) == WORD(IL,I*,"").
FORM(ILS,PRESENT,RE,I*) == WORD(ILS,I*,ENT).
FORM(NOUS,PRESENT,A*,I*) == WORD(NOUS,I*,ONS) / A* -DANS- ER,RE,AVOIR,ALLER.
FORM(VOUS,PRESENT,A*,I*) == WORD(VOUS,I*,EZ) / A* -DANS- ER,RE,AVOIR,ALLER.
# the present of irregular verbs
FORM(JE,PRESENT,ÊTRE,I*) == WORD(JE,SUIS,"").
FORM(TU,PRESENT,ÊTRE,I*) == WORD(TU,ES,"").
FORM(IL,PRESENT,ÊTRE,I*) == WORD(IL,EST,"").
FORM(NOUS,PRESENT,ÊTRE,I*) == WORD(NOUS,SOMMES,"").
FORM(VOUS,PRESENT,ÊTRE,I*) == WORD(VOUS,ÊTES,"").
FORM(ILS,PRESENT,ÊTRE,I*) == WORD(ILS,SONT,"").
FORM(JE,PRESENT,AVOIR,I*) == WORD(JE,AI,"").
FORM(TU,PRESENT,AVOIR,I*) == WORD(TU,AS,"").
FORM(IL,PRESENT,AVOIR,I*) == WORD(IL,A,"").
FORM(ILS,PRESENT,AVOIR,I*) == WORD(ILS,ONT,"").
FORM(JE,PRESENT,ALLER,I*) == WORD(JE,VAIS,"").
FORM(TU,PRESENT,ALLER,I*) == WORD(TU,VAS,"").
FORM(IL,PRESENT,ALLER,I*) == WORD(IL,VA,"").
FORM(ILS,PRESENT,ALLER,I*) == WORD(ILS,VONT,"").
# the imperfect: the stem of NOUS in the present, but for ÊTRE, and endings that are the same for all
FORM(A*,IMPERFECT,B*,I*) == PAST(A*,I*) / B* -DANS- ER,RE,AVOIR,ALLER.
FORM(A*,IMPERFECT,IR,I*) == PAST(A*,I*,ISS).
FORM(A*,IMPERFECT,ÊTRE,I*) == PAST(A*,I*).
PAST(A*,U*) == WORD(A*,U*,AIS) / A* -DANS- JE,TU.
PAST(IL,U*) == WORD(IL,U*,AIT).
PAST(NOUS,U*) == WORD(NOUS,U*,IONS).
PAST(VOUS,U*) == WORD(VOUS,U*,IEZ).
PAST(ILS,U*) == WORD(ILS,U*,AIENT).
# the future: the infinitive, or a stem of its own, and the endings of AVOIR
FORM(A*,FUTURE,ER,I*) == COMING(A*,I*,ER).
FORM(A*,FUTURE,IR,I*) == COMING(A*,I*,IR).
FORM(A*,FUTURE,RE,I*) == COMING(A*,I*,R).
FORM(A*,FUTURE,ÊTRE,I*) == COMING(A*,SER).
FORM(A*,FUTURE,AVOIR,I*) == COMING(A*,AUR).
FORM(A*,FUTURE,ALLER,I*) == COMING(A*,IR).
COMING(JE,U*) == WORD(JE,U*,AI).
COMING(TU,U*) == WORD(TU,U*,AS).
COMING(IL,U*) == WORD(IL,U*,A).
COMING(NOUS,U*) == WORD(NOUS,U*,ONS).
COMING(VOUS,U*) == WORD(VOUS,U*,EZ).
COMING(ILS,U*) == WORD(ILS,U*,ONT).

# Before A and O, G is written GE and C is written Ç. JE loses its E before a vowel.
-SYSTEME- SPELLING.
WORD(I*,MANG,J*) == WORD(I*,MANGE,J*) / J* -DANS- ONS,AIS,AIT,AIENT.
WORD(I*,COMMENC,J*) == WORD(I*,COMMENÇ,J*) / J* -DANS- ONS,AIS,AIT,AIENT.
WORD(JE,I*,U*) == WORD(J',I*,U*) / I* -DANS- AIM,AI,AV,ALL,AUR,ÊT,IR.

# A verb and its participle are one form.
-SYSTEME- PAIRS.
WORD(U*) + PARTICIPLE(V*) == WORD(U*,PARTICIPLE(V*)).

# A table: first all forms of JE, then all of TU, and so on. The nodes tell the verb and the tense.
-SYSTEME- TABLE.
WORD(A*,U*) == VERB(A*,U*) / A* -DANS- JE,J'.
WORD(TU,U*) == VERB(TU,U*).
WORD(IL,U*) == VERB(IL,U*).
WORD(NOUS,U*) == VERB(NOUS,U*).
WORD(VOUS,U*) == VERB(VOUS,U*).
WORD(ILS,U*) == VERB(ILS,U*).

-GRAPHE-
-1- AIMER + TENSE(PRESENT) -2-.
-2- MANGER + TENSE(PRESENT) -3-.
-3- COMMENCER + TENSE(IMPERFECT) -4-.
-4- FINIR + TENSE(PRESENT) -5-.
-5- FINIR + TENSE(IMPERFECT) -6-.
-6- VENDRE + TENSE(FUTURE) -7-.
-7- ÊTRE + TENSE(PRESENT) -8-.
-8- AVOIR + TENSE(PRESENT) -9-.
-9- ALLER + TENSE(PRESENT) -10-.
-10- ALLER + TENSE(FUTURE) -11-.
-11- ALLER + TENSE(PERFECT) -12-.
-12- AIMER + TENSE(PERFECT) -13-.
-FIN-
