# A right side of two trees goes through a new node.
-SYSTEME- CONTRACTIONS.
DU == DE + LE.
-GRAPHE-
-1- VIENT + DU + SUD -2-.
-FIN-
