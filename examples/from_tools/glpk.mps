* Problem:    plan
* Class:      LP
* Rows:       5
* Columns:    7
* Non-zeros:  13
* Format:     Free MPS
*
NAME plan
ROWS
 N cost
 E start
 E balance[1]
 E balance[2]
 E balance[3]
COLUMNS
 make[1] balance[1] 1
 make[2] balance[2] 1
 make[3] balance[3] 1
 store[1] cost 1 balance[1] -1
 store[1] balance[2] 1
 store[2] cost 1 balance[2] -1
 store[2] balance[3] 1
 store[3] cost 1 balance[3] -1
 store[0] start 1 balance[1] 1
RHS
 RHS1 balance[1] 8 balance[2] 12
 RHS1 balance[3] 13
BOUNDS
 UP BND1 make[1] 10
 UP BND1 make[2] 10
 UP BND1 make[3] 10
ENDATA
