\ Factors that lie 10^30 times apart.
Minimize
Subject To
 c1: 1e30 x + y = 1
 c2: x + 1e30 y = 1
End
