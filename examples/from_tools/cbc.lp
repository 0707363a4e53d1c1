\Problem name: 

Minimize
OBJROW: store_1 + store_2 + store_3
Subject To
balance_1:  - store_1 + make_1 = 8
balance_2:  store_1 - store_2 + make_2 = 12
balance_3:  store_2 - store_3 + make_3 = 13
Bounds
 0 <= make_1 <= 10
 0 <= make_2 <= 10
 0 <= make_3 <= 10
End
