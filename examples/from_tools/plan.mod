# A production plan for three periods, in GNU MathProg.
set T := 1..3;
param demand{T};
var make{T} >= 0, <= 10;
var store{0..3} >= 0;
minimize cost: sum{t in T} store[t];
s.t. start: store[0] = 0;
s.t. balance{t in T}: store[t-1] + make[t] - store[t] = demand[t];
data;
param demand := 1 8 2 12 3 13;
end;
