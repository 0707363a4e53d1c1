\ A batch that is to be 2, and at least 3, in a kettle that holds 1; and something to drink.
Minimize
Subject To
 recipe: batch = 2
 order: batch >= 3
 drink: tea + milk >= 1
Bounds
 -inf <= batch <= 1
End
