\ Two sites may be opened. A site that is open makes at most what its link says; the limits are those of last year.
Minimize
 cost: 500 open_a + 400 open_b + 3 made_a + 4 made_b
Subject To
 link_a: made_a - 60 open_a <= 0
 link_b: made_b - 45 open_b <= 0
 demand: made_a + made_b >= 120
Bounds
 open_a <= 1
 open_b <= 1
General
 open_a open_b
End
