-- Set operators, ranges, IN and comparisons. A set is a number: bit i for element i.
local a, b, c, i, k, hits, rounds = 0, 0, 0, 0, 0, 0, 0
local ALL <const> = 0xffffffff

-- the elements from..to
local function range(from, to)
  if from > to then
    return 0
  end
  return (2 << to) - (1 << from)
end

a = 1 | 1 << 5 | 1 << 10 | 1 << 15 | 1 << 20 | 1 << 25 | 1 << 30 --+1
b = range(3, 17) --+1
for _ = 1, 1100000 do
  i = rounds % 32 --+1
  k = (i * 7 + 3) % 32 --+1
  c = (a | range(i, k)) & b --+1
  a = (a ~ 1 << i) & ~(1 << k) --+1
  b = ~(b & c) & ALL | 1 << k --+1
  --+1
  if a >> k & 1 == 1 or b >> i & 1 == 1 and a ~= b then
    hits = (hits + 1) % 1000000 --+1
  end
  --+1
  if a == 0 then
    a = ~c & ALL --+1
  end
  rounds = (rounds + 1) % 1000000 --+1
  --+1
end

return {a, b, c, i, k, hits, rounds}
