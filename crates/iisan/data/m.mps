ROWS
 G r
 L s
COLUMNS
 x r 2
 x s 1
RHS
 r 3
 s 4
ENDATA
