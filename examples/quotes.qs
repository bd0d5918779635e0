# A label with other characters than letters, digits, _ and ' is written between quotes, and a quote in it twice.
# Where quotes aren't needed they mean nothing: "CHAT" and CHAT are the same label.
-SYSTEME- "QUOTED LABELS".
"." == POINT.
"NORD-OUEST" == "nord-ouest".
"CHAT" == "le ""chat""".
L'EST == "".
-GRAPHE-
-1- CHAT + "NORD-OUEST" + "L'EST" + ÉTÉ + "." -2-.
-FIN-
