\ A bakery has 40 sacks of flour, and may buy more: how much bread and cake pays best?
Maximize
 profit: 5 bread + 9 cake - 2 bought
Subject To
 flour: bread + 2 cake - bought <= 40
End
