\ A and B contradict one another, and so do B and C.
Minimize
Subject To
 A: x <= 0
 B: x >= 1
 C: x <= 0
End
