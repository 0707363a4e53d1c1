\ A tank over four days: level today = level yesterday + inflow - outflow. On day 3 the outflow was added.
Minimize
 waste: out_1 + out_2 + out_3 + out_4
Subject To
 day_1: level_1 + out_1 = 65
 day_2: level_2 - level_1 + out_2 = 20
 day_3: level_3 - level_2 - out_3 = 20
 day_4: level_4 - level_3 + out_4 = 20
 need_1: out_1 >= 25
 need_2: out_2 >= 25
 need_3: out_3 >= 25
 need_4: out_4 >= 25
 reserve: level_4 >= 10
Bounds
 level_1 <= 40
 level_2 <= 40
 level_3 <= 40
 level_4 <= 40
 out_1 <= 30
 out_2 <= 30
 out_3 <= 30
 out_4 <= 30
End
