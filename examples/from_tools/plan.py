import pulp
plan = pulp.LpProblem("plan", pulp.LpMinimize)
demand = {1: 8, 2: 12, 3: 13}
make = pulp.LpVariable.dicts("make", demand, 0, 10)
store = pulp.LpVariable.dicts("store", demand, 0)
plan += pulp.lpSum(store[t] for t in demand), "cost"
for t in demand:
    before = store[t - 1] if t > 1 else 0
    plan += before + make[t] - store[t] == demand[t], f"balance_{t}"
plan.writeLP("pulp.lp")
plan.writeMPS("pulp.mps")
