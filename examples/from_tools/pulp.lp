\* plan *\
Minimize
cost: store_1 + store_2 + store_3
Subject To
balance_1: make_1 - store_1 = 8
balance_2: make_2 + store_1 - store_2 = 12
balance_3: make_3 + store_2 - store_3 = 13
Bounds
 make_1 <= 10
 make_2 <= 10
 make_3 <= 10
End
