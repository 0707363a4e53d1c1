\ Shares of a mixture, in percent. The least shares come to more than 100.
Minimize
 price: 2 oats + 12 nuts + 6 raisins + 5 seeds + 9 honey
Subject To
 all: oats + nuts + raisins + seeds + honey = 100
 fibre: 0.11 oats + 0.08 nuts + 0.04 raisins + 0.27 seeds >= 9
Bounds
 oats >= 45
 nuts >= 20
 raisins >= 15
 seeds >= 12
 honey >= 10
End
