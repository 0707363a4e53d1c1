*SENSE:Minimize
NAME          plan
ROWS
 N  cost
 E  balance_1
 E  balance_2
 E  balance_3
COLUMNS
    make_1    balance_1   1.000000000000e+00
    make_2    balance_2   1.000000000000e+00
    make_3    balance_3   1.000000000000e+00
    store_1   balance_1  -1.000000000000e+00
    store_1   balance_2   1.000000000000e+00
    store_1   cost       1.000000000000e+00
    store_2   balance_2  -1.000000000000e+00
    store_2   balance_3   1.000000000000e+00
    store_2   cost       1.000000000000e+00
    store_3   balance_3  -1.000000000000e+00
    store_3   cost       1.000000000000e+00
RHS
    RHS       balance_1   8.000000000000e+00
    RHS       balance_2   1.200000000000e+01
    RHS       balance_3   1.300000000000e+01
BOUNDS
 UP BND       make_1     1.000000000000e+01
 UP BND       make_2     1.000000000000e+01
 UP BND       make_3     1.000000000000e+01
ENDATA
