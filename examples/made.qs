-SYSTEME- M.
T0(I*) + T0(J*) == T1(I*).
T1(I*) + T1(J*) == T2(I*).
-GRAPHE-
-1- T0(M1) + T0(M2) + T0(M3) + T0(M4) -2-.
-FIN-
