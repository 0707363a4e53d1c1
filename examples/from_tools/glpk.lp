\* Problem: plan *\

Minimize
 cost: + store(1) + store(2) + store(3)

Subject To
 start: + store(0) = -0
 balance(1): + make(1) - store(1) + store(0) = 8
 balance(2): + make(2) + store(1) - store(2) = 12
 balance(3): + make(3) + store(2) - store(3) = 13

Bounds
 0 <= make(1) <= 10
 0 <= make(2) <= 10
 0 <= make(3) <= 10

End
