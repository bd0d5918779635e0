# From a # to the end of the line is a comment. Comments, spaces and ends of lines may stand
# between any two tokens.
-SYSTEME-   PHRASES   . # the name of the grammar
  LE
    + CHAT   # two words
  ==GN( LE , CHAT ) .
  "#"==SHARP.            # a # between quotes is none
-GRAPHE-
-1-LE+CHAT+"#"-2-. # this, too, is a chain
-FIN-
# and behind the end only comments stand
