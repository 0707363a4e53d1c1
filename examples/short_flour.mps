ROWS
 E week1
 E week2
 E week3
 L oven1
 L oven2
 L oven3
 L shift1
 L shift2
 L shift3
 L store1
 L store2
 L flour
 G safety
COLUMNS
 bake1 week1 1
 bake1 oven1 1
 bake1 flour 2
 bake2 week2 1
 bake2 oven2 1
 bake2 flour 2
 bake3 week3 1
 bake3 oven3 1
 bake3 flour 2
 extra1 week1 1
 extra1 shift1 1
 extra1 flour 2
 extra2 week2 1
 extra2 shift2 1
 extra2 flour 2
 extra3 week3 1
 extra3 shift3 1
 extra3 flour 2
 stock1 week1 -1
 stock1 week2 1
 stock1 store1 1
 stock2 week2 -1
 stock2 week3 1
 stock2 store2 1
 stock3 week3 -1
 stock3 safety 1
RHS
 week1 120
 week2 150
 week3 180
 oven1 140
 oven2 140
 oven3 140
 shift1 20
 shift2 20
 shift3 20
 store1 40
 store2 40
 flour 900
 safety 10
ENDATA
