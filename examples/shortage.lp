\ A bakery has more orders than its oven and its people can meet: how little must give way?
Minimize
 baked: bread + cake
Subject To
 orders: bread + cake >= 120
 cakes: cake >= 40
 oven: bread + 2 cake <= 130
 hours: 0.5 bread + cake <= 70
End
