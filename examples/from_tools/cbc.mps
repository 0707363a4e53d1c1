NAME          plan      FREE
ROWS
 N  OBJROW
 E  start
 E  balance[1]
 E  balance[2]
 E  balance[3]
COLUMNS
    make[1] balance[1] 1.          
    make[2] balance[2] 1.          
    make[3] balance[3] 1.          
    store[1] OBJROW 1.           balance[1]  -1.        
    store[1] balance[2] 1.          
    store[2] OBJROW 1.           balance[2]  -1.        
    store[2] balance[3] 1.          
    store[3] OBJROW 1.           balance[3]  -1.        
    store[0] start 1.           balance[1] 1.          
RHS
    RHS balance[1] 8.           balance[2] 12.         
    RHS balance[3] 13.         
BOUNDS
 UP BOUND make[1] 10.         
 UP BOUND make[2] 10.         
 UP BOUND make[3] 10.         
ENDATA
