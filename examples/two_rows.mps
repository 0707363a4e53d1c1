ROWS
 L c1
 G c2
COLUMNS
 x c1 3
 x c2 2
 y c1 3
 y c2 2
RHS
 c1 1
 c2 1
ENDATA
