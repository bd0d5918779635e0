# A reading that is found in two ways is there twice.
-SYSTEME- TWICE.
AMI(SING) == N(AMI).
AMI(U*) == N(AMI).
-GRAPHE-
-1- AMI(SING) -2-.
-FIN-
