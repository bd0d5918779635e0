# A graph with two paths. What graph writes: written nodes are numbered from 1 in ascending order, and those inside the
# chains follow; arcs stand in the order of the text.
-SYSTEME- NOTHING.
-GRAPHE-
-10- POMME + DE + TERRE -40-.
-10- PATATE -40-.
-40- FRITE -50-.
-FIN-
