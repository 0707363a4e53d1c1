\ A store that is to hold at least 3 and at most 2.
Minimize
 cost: store
Subject To
Bounds
 store >= 3
 store <= 2
End
