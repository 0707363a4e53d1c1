\ A kiln holds between 20 and 40 pots of two kinds; 50 are ordered.
Minimize
Subject To
 load: 20 <= cups + jugs <= 40
 order: cups + jugs >= 50
End
