\ Three plants serve eight towns. Together they make one tonne less than the towns want.
Minimize
 cost: 10 ship_1_1 + 4 ship_1_2 + 9 ship_1_3 + 3 ship_1_4 + 8 ship_1_5 + 2 ship_1_6 + 7 ship_1_7 + 12 ship_1_8 + 2 ship_2_1 + 7 ship_2_2 + 12 ship_2_3 + 6 ship_2_4 + 11 ship_2_5 + 5 ship_2_6 + 10 ship_2_7 + 4 ship_2_8 + 5 ship_3_1 + 10 ship_3_2 + 4 ship_3_3 + 9 ship_3_4 + 3 ship_3_5 + 8 ship_3_6 + 2 ship_3_7 + 7 ship_3_8
Subject To
 plant_1: ship_1_1 + ship_1_2 + ship_1_3 + ship_1_4 + ship_1_5 + ship_1_6 + ship_1_7 + ship_1_8 <= 80
 plant_2: ship_2_1 + ship_2_2 + ship_2_3 + ship_2_4 + ship_2_5 + ship_2_6 + ship_2_7 + ship_2_8 <= 90
 plant_3: ship_3_1 + ship_3_2 + ship_3_3 + ship_3_4 + ship_3_5 + ship_3_6 + ship_3_7 + ship_3_8 <= 70
 town_1: ship_1_1 + ship_2_1 + ship_3_1 >= 31
 town_2: ship_1_2 + ship_2_2 + ship_3_2 >= 24
 town_3: ship_1_3 + ship_2_3 + ship_3_3 >= 40
 town_4: ship_1_4 + ship_2_4 + ship_3_4 >= 28
 town_5: ship_1_5 + ship_2_5 + ship_3_5 >= 36
 town_6: ship_1_6 + ship_2_6 + ship_3_6 >= 22
 town_7: ship_1_7 + ship_2_7 + ship_3_7 >= 27
 town_8: ship_1_8 + ship_2_8 + ship_3_8 >= 33
End
