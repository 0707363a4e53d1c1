\ A lift is to carry boxes of 12 and crates of 19 kilograms. It runs with 33 to 35 kilograms, and there are three boxes.
Minimize
 trips: boxes + crates
Subject To
 load: 33 <= 12 boxes + 19 crates <= 35
Bounds
 boxes <= 3
General
 boxes crates
End
