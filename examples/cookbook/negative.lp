\ Money in and out of three months. A month may end with a loss, but no line says that a balance may be negative.
Maximize
 end: balance_3
Subject To
 january: balance_1 = -20
 february: balance_2 - balance_1 = 35
 march: balance_3 - balance_2 = 15
 goal: balance_3 >= 25
End
