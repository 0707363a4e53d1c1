\ Twelve weeks of one product: what is made and what is in store meets the demand. Week 9 was typed with a 0 too many.
Minimize
 cost: store_1 + store_2 + store_3 + store_4 + store_5 + store_6 + store_7 + store_8 + store_9 + store_10 + store_11 + store_12
Subject To
 week_1: make_1 - store_1 = 38
 week_2: store_1 + make_2 - store_2 = 41
 week_3: store_2 + make_3 - store_3 = 45
 week_4: store_3 + make_4 - store_4 = 40
 week_5: store_4 + make_5 - store_5 = 44
 week_6: store_5 + make_6 - store_6 = 47
 week_7: store_6 + make_7 - store_7 = 42
 week_8: store_7 + make_8 - store_8 = 39
 week_9: store_8 + make_9 - store_9 = 450
 week_10: store_9 + make_10 - store_10 = 43
 week_11: store_10 + make_11 - store_11 = 41
 week_12: store_11 + make_12 - store_12 = 40
Bounds
 make_1 <= 50
 make_2 <= 50
 make_3 <= 50
 make_4 <= 50
 make_5 <= 50
 make_6 <= 50
 make_7 <= 50
 make_8 <= 50
 make_9 <= 50
 make_10 <= 50
 make_11 <= 50
 make_12 <= 50
 store_1 <= 60
 store_2 <= 60
 store_3 <= 60
 store_4 <= 60
 store_5 <= 60
 store_6 <= 60
 store_7 <= 60
 store_8 <= 60
 store_9 <= 60
 store_10 <= 60
 store_11 <= 60
 store_12 <= 60
End
