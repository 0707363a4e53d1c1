\ Two workshops that have nothing to do with one another, each with a mistake of its own.
Minimize
 cost: 9 tables + 4 chairs + cups + 2 bowls
Subject To
 saw_orders: tables + chairs >= 40
 saw_hours: 3 tables + chairs <= 30
 saw_tables: tables >= 5
 kiln_orders: cups + bowls >= 200
 kiln_room: cups + 2 bowls <= 240
 kiln_bowls: bowls >= 60
End
