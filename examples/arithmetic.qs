# Arithmetic with precedence. "^" binds tightest and goes from right to left; then a minus sign; then "*" and "/", and
# then "+" and "-", from left to right. Parentheses group otherwise. ";" ends an expression.
#
# The first half makes a tree of each expression, the second writes it for a machine with a stack: each operation
# stands behind what it works on, and no parentheses are needed.

# Where expressions begin and end; and numbers and names, which are all that is no sign.
-SYSTEME- ATOMS.
TEXT == START + BEGIN.
";" == END + BEGIN.
A* == ATOM(A*) / A* -HORS- "+","-","*","/","^","(",")",";",TEXT,STOP,START,BEGIN,END.

# From the tightest level to the loosest. Each level takes what stands on the tighter one before it.
-SYSTEME- EXPRESSIONS.
ATOM(I*) == POWER(I*).
ATOM(I*) + "^" + POWER(J*) == POWER("^"(I*,J*)).
POWER(I*) == SIGNED(I*).
"-" + SIGNED(I*) == SIGNED(MINUS(I*)).
SIGNED(I*) == PRODUCT(I*).
PRODUCT(I*) + A* + SIGNED(J*) == PRODUCT(A*(I*,J*)) / A* -DANS- "*","/".
PRODUCT(I*) == SUM(I*).
SUM(I*) + A* + PRODUCT(J*) == SUM(A*(I*,J*)) / A* -DANS- "+","-".
"(" + SUM(I*) + ")" == ATOM(I*).
BEGIN + SUM(I*) + END == TREE(I*).
BEGIN + STOP == STOP.

# The same in another order: the parts of an operation, and then its sign.
-SYSTEME- STACK.
TREE(I*) == BEGIN + CODE(I*) + END.
CODE(A*(I*,J*)) == CODE(I*) + CODE(J*) + A*.
CODE(MINUS(I*)) == CODE(I*) + MINUS.
CODE(A*) == A*.

# Gathered from the end of each expression.
-SYSTEME- PROGRAMS.
END == WORDS.
A* + WORDS(U*) == WORDS(A*,U*) / A* -HORS- BEGIN.
BEGIN + WORDS(U*) == PROGRAM(U*).

# In the order of the text: a head goes along, one expression in each round.
-SYSTEME- LAYOUT.
START + PROGRAM(U*) == PROGRAM(U*) + START.
START + STOP == STOP.

-GRAPHE-
-1- TEXT + 2 + "+" + 3 + "*" + 4 + ";" -2-.
-2- "(" + 2 + "+" + 3 + ")" + "*" + 4 + ";" -3-.
-3- 9 + "-" + 4 + "-" + 3 + ";" -4-.
-4- 9 + "-" + "(" + 4 + "-" + 3 + ")" + ";" -5-.
-5- 2 + "^" + 3 + "^" + 2 + ";" -6-.
-6- "-" + X + "^" + 2 + ";" -7-.
-7- A + "*" + X + "^" + 2 + "+" + B + "*" + X + "+" + C + ";" -8-.
-8- 8 + "/" + 4 + "/" + 2 + "-" + "-" + 1 + ";" -9-.
-9- "(" + "(" + 7 + ")" + ")" + ";" + STOP -10-.
-FIN-
