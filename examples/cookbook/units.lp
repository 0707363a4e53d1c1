\ Three orders go out by four lorries. Orders are in kilograms; the lorries' limits were typed in tonnes.
Minimize
 km: 12 a_north + 12 b_north + 12 c_north + 12 d_north + 30 a_east + 30 b_east + 30 c_east + 30 d_east + 7 a_west + 7 b_west
Subject To
 order_north: a_north + b_north + c_north + d_north >= 5400
 order_east: a_east + b_east + c_east + d_east >= 2600
 order_west: a_west + b_west + c_west + d_west >= 4100
 lorry_a: a_north + a_east + a_west <= 3.5
 lorry_b: b_north + b_east + b_west <= 3.5
 lorry_c: c_north + c_east + c_west <= 7.5
 lorry_d: d_north + d_east + d_west <= 7.5
End
