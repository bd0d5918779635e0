# Noun phrases of Malay, into English. In Malay a noun comes before all that describes it (RUMAH BESAR ITU, house big
# that), a noun said twice is a plural (BUKU BUKU, written buku-buku), and what is counted needs a classifier: ORANG
# for people, EKOR for animals, BUAH for things, BATANG for long ones, SE- for one of them. English has the order
# turned round, articles, and numbers.

# Words and their classes, with what English has for them. A word may have several: ORANG is "person", and a classifier.
-SYSTEME- WORDS.
ORANG == N(PERSON,HUMAN).
GURU == N(TEACHER,HUMAN).
ANAK == N(CHILD,HUMAN).
KUCING == N(CAT,ANIMAL).
KUDA == N(HORSE,ANIMAL).
IKAN == N(FISH,ANIMAL).
RUMAH == N(HOUSE,THING).
BUKU == N(BOOK,THING).
KERETA == N(CAR,THING).
PENSEL == N(PENCIL,LONG).
POKOK == N(TREE,LONG).
BESAR == ADJ(BIG).
KECIL == ADJ(SMALL).
HITAM == ADJ(BLACK).
BAHARU == ADJ(NEW).
BAIK == ADJ(GOOD).
TUA == ADJ(OLD).
INI == DEM(NEAR).
ITU == DEM(FAR).
SAYA == PRON(MY).
DIA == PRON(THEIR).
KAMI == PRON(OUR).
DUA == NUM(TWO).
TIGA == NUM(THREE).
BEBERAPA == NUM(SEVERAL).
SEMUA == ALL.
ORANG == CLASS(HUMAN).
EKOR == CLASS(ANIMAL).
BUAH == CLASS(THING).
BATANG == CLASS(LONG).
SEORANG == ONE(HUMAN).
SEEKOR == ONE(ANIMAL).
SEBUAH == ONE(THING).
SEBATANG == ONE(LONG).
YANG == THAT.
TEXT == BEGIN.
"." == END + BEGIN.

# Phrases: a noun, then adjectives, then whose it is, then INI or ITU. A list in NP keeps them in this order:
# the noun, its number, its adjectives. A classifier has to fit its noun.
-SYSTEME- PHRASES.
N(I*,J*) == BARE(I*,J*,OPEN).
N(I*,J*) + N(I*,J*) == BARE(I*,J*,PLURAL).
ONE(J*) + BARE(I*,J*,OPEN) == COUNTED(I*,SINGULAR,ONE).
NUM(K*) + CLASS(J*) + BARE(I*,J*,OPEN) == COUNTED(I*,PLURAL,K*).
NUM(SEVERAL) + BARE(I*,J*,OPEN) == COUNTED(I*,PLURAL,SEVERAL).
BARE(I*,J*,A*) == NP(I*,A*).
COUNTED(I*,A*,J*) == NP(I*,A*,COUNT(J*)).
NP(U*) + ADJ(I*) == NP(U*,ADJ(I*)).
NP(U*) + THAT + ADJ(I*) == NP(U*,ADJ(I*)).
NP(U*) + PRON(I*) == OWNED(NP(U*),PRON(I*)).
NP(I*,U*) + N(J*,HUMAN) == OWNED(NP(I*,U*),OWNER(J*)) / I* -HORS- J*.
NP(I*,U*) + N(J*,HUMAN) + PRON(K*) == OWNED(NP(I*,U*),OWNER(J*,PRON(K*))) / I* -HORS- J*.
A*(U*) == PHRASE(A*(U*)) / A* -DANS- NP,OWNED.
A*(U*) + DEM(I*) == PHRASE(A*(U*),DEM(I*)) / A* -DANS- NP,OWNED.
ALL + PHRASE(U*) == PHRASE(ALL,U*).
# A phrase has to be all that stands between its two marks.
BEGIN + PHRASE(U*) + END == MALAY(U*).
BEGIN + STOP == STOP.

# A bare noun is one or many in Malay, and English has to say which: so there are two readings, but with SEMUA, "all".
-SYSTEME- NUMBER.
MALAY(A*(I*,OPEN,U*),V*) == MALAY(A*(I*,SINGULAR,U*),V*).
MALAY(A*(I*,OPEN,U*),V*) == MALAY(A*(I*,PLURAL,U*),V*).
MALAY(OWNED(NP(I*,OPEN,U*),J*),V*) == MALAY(OWNED(NP(I*,SINGULAR,U*),J*),V*).
MALAY(OWNED(NP(I*,OPEN,U*),J*),V*) == MALAY(OWNED(NP(I*,PLURAL,U*),J*),V*).
MALAY(ALL,NP(I*,OPEN,U*),V*) == MALAY(ALL,NP(I*,PLURAL,U*),V*).
MALAY(ALL,OWNED(NP(I*,OPEN,U*),J*),V*) == MALAY(ALL,OWNED(NP(I*,PLURAL,U*),J*),V*).

# What determines comes first in English: all, an article, this or that, whose it is.
-SYSTEME- DETERMINERS.
MALAY(U*) == BEGIN + NEXT(U*) + END.
NEXT(ALL,U*) == ALL + NEXT(U*).
NEXT(NP(I*,SINGULAR,U*)) == A + NOUN(I*,SINGULAR,U*).
NEXT(NP(I*,PLURAL,U*)) == NOUN(I*,PLURAL,U*).
NEXT(NP(I*,A*,U*),DEM(J*)) == DEM(J*,A*) + NOUN(I*,A*,U*).
NEXT(OWNED(NP(I*,A*,U*),PRON(J*))) == J* + NOUN(I*,A*,U*).
NEXT(OWNED(NP(I*,A*,U*),PRON(J*)),DEM(K*)) == DEM(K*,A*) + NOUN(I*,A*,U*) + OF + STRONG(J*).
NEXT(OWNED(NP(I*,A*,U*),OWNER(J*))) == THE + GENITIVE(J*) + NOUN(I*,A*,U*).
NEXT(OWNED(NP(I*,A*,U*),OWNER(J*,PRON(K*)))) == K* + GENITIVE(J*) + NOUN(I*,A*,U*).

# Then how many. SE- is already in the article.
-SYSTEME- COUNTS.
NOUN(I*,A*,COUNT(ONE),U*) == NOUN(I*,A*,U*).
NOUN(I*,A*,COUNT(J*),U*) == J* + NOUN(I*,A*,U*) / J* -HORS- ONE.

# Then the adjectives, the last of Malay first, and the noun.
-SYSTEME- ADJECTIVES.
NOUN(U*,ADJ(I*)) == I* + NOUN(U*).
NOUN(I*,A*) == FORM(I*,A*).

-SYSTEME- FORMS.
FORM(I*,SINGULAR) == I*.
FORM(PERSON,PLURAL) == PEOPLE.
FORM(TEACHER,PLURAL) == TEACHERS.
FORM(CHILD,PLURAL) == CHILDREN.
FORM(CAT,PLURAL) == CATS.
FORM(HORSE,PLURAL) == HORSES.
FORM(FISH,PLURAL) == FISH.
FORM(HOUSE,PLURAL) == HOUSES.
FORM(BOOK,PLURAL) == BOOKS.
FORM(CAR,PLURAL) == CARS.
FORM(PENCIL,PLURAL) == PENCILS.
FORM(TREE,PLURAL) == TREES.
GENITIVE(PERSON) == PERSON'S.
GENITIVE(TEACHER) == TEACHER'S.
GENITIVE(CHILD) == CHILD'S.
DEM(NEAR,SINGULAR) == THIS.
DEM(NEAR,PLURAL) == THESE.
DEM(FAR,SINGULAR) == THAT.
DEM(FAR,PLURAL) == THOSE.
STRONG(MY) == MINE.
STRONG(THEIR) == THEIRS.
STRONG(OUR) == OURS.
A + OLD == AN + OLD.

# The words of a phrase, gathered from its end.
-SYSTEME- TRANSLATIONS.
END == WORDS.
A* + WORDS(U*) == WORDS(A*,U*) / A* -HORS- BEGIN.
BEGIN + WORDS(U*) == ENGLISH(U*).

-GRAPHE-
-1- TEXT -2-.
-2- RUMAH + BESAR + "." -3-.
-3- RUMAH + BESAR + ITU + "." -4-.
-4- SEEKOR + KUCING + HITAM + KECIL + "." -5-.
-5- DUA + EKOR + KUCING + HITAM + ITU + "." -6-.
-6- BUKU + BUKU + SAYA + "." -7-.
-7- BUKU + GURU + SAYA + "." -8-.
-8- SEMUA + ANAK + "." -9-.
-9- BEBERAPA + ORANG + "." -10-.
-10- TIGA + ORANG + ANAK + YANG + BAIK + "." -11-.
-11- KERETA + BAHARU + KAMI + INI + "." -12-.
-12- SEORANG + GURU + TUA + "." -13-.
-13- TIGA + BATANG + PENSEL + "." + STOP -14-.
-FIN-
