Minimize
 hours: monday + tuesday + wednesday + thursday
Subject To
 contract: monday = 1
 flour: monday + tuesday = 3
 oven: tuesday + wednesday = 1
 van: wednesday + thursday <= 4
End
