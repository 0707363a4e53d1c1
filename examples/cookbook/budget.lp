\ Meals for a week: energy and protein are to be had within a budget. What is it that costs too much?
Minimize
 price: 2.8 bread + 3.1 beans + 1.1 milk + 5 oil
Subject To
 energy: 3.4 bread + 1.3 beans + 0.6 milk + 7.2 oil >= 140
 protein: 90 bread + 210 beans + 33 milk >= 4200
 variety: beans + milk >= 6
 budget: 2.8 bread + 3.1 beans + 1.1 milk + 5 oil <= 70
Bounds
 bread <= 14
 oil <= 5
End
