\ A crop is split evenly over three stores, and at least 30 are to be stored. The thirds are rounded.
Minimize
 cost: store_1 + 2 store_2 + 3 store_3
Subject To
 even_1: store_1 - 0.333333333333 crop = 0
 even_2: store_2 - 0.333333333333 crop = 0
 even_3: store_3 - 0.333333333333 crop = 0
 all: store_1 + store_2 + store_3 - crop = 0
 least: crop >= 30
End
