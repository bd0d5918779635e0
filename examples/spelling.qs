# What check writes: each rule and each chain on its line, quotes and parentheses only where they are needed.
-SYSTEME- "S".  A*(U*,V*)==B("C()",A*())/(-NON-(U* -DANS- V*))-OU-(V* -HORS- X,"Y" -ET- U* -DANS-V*).
  I* + "nord-ouest" == I*. -SYSTEME- T.
-GRAPHE- -10- A() + B(C,D()) -30-. -10- É -30-. -FIN-
