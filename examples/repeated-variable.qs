# A variable that is repeated takes equal values. A noun that is said twice is a plural here, as in Indonesian.
-SYSTEME- PLURALS.
N(I*) + N(I*) == N(PLUR,I*).
-GRAPHE-
-1- N(ORANG) + N(ORANG) + N(RUMAH) + N(KUDA) -2-.
-FIN-
