NAME OUTING
ROWS
 N cost
 G seats
COLUMNS
 M1 'MARKER' 'INTORG'
 coach cost 400
 coach seats 40
 van cost 90
 van seats 9
 M2 'MARKER' 'INTEND'
RHS
 RHS seats 52
RANGES
 RNG seats 3
BOUNDS
 PL BND coach
 UP BND van 4
ENDATA
