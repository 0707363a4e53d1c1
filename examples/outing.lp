\ An outing of 52 people. A coach has 40 seats and a van 9, there are four vans, and at most 3 seats may stay empty.
Minimize
 cost: 400 coach + 90 van
Subject To
 seats: 52 <= 40 coach + 9 van <= 55
Bounds
 van <= 4
General
 coach van
End
