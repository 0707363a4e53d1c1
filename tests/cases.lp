Minimize
 cost: 0 x + 0 y + 0 z
Subject To
 c1: x <= 1
 c2: x >= 2
 c3: x <= 5
Bounds
 0 <= x <= 3
 0 <= y <= 3
 0 <= z <= 3
General
 z
End
