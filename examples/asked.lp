\ Two rows that contradict one another, for edits that are refused and a question that is not answered.
Minimize
 cost: a + b
Subject To
 low: a + b >= 2
 high: a + b <= 1
End
