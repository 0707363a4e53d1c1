\ The production plan for three periods, with a capacity of 13 in the third.
Minimize
 cost: s1 + s2 + s3
Subject To
 b1: p1 - s1 = 8
 b2: s1 + p2 - s2 = 12
 b3: s2 + p3 - s3 = 13
Bounds
 p1 <= 10
 p2 <= 10
 p3 <= 13
End
