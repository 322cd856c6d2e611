-- Copies of records of 16 and of 64 cells, with tables for records and arrays. Elements are counted from 1.
local move = table.move

local function numbers()
  return {0, 0, 0, 0, 0, 0, 0, 0, 0, 0, 0, 0, 0, 0, 0, 0}
end

local function new_small()
  return {n = numbers()}
end

local function new_large()
  return {n = numbers(), a = new_small(), b = new_small(), c = new_small()}
end

-- the cells of a Small, also of a Large as one
local function copy_small(from, to)
  move(from.n, 1, 16, 1, to.n)
end

local function copy_large(from, to)
  move(from.n, 1, 16, 1, to.n)
  copy_small(from.a, to.a)
  copy_small(from.b, to.b)
  copy_small(from.c, to.c)
end

local small, large = {}, {}
for j = 1, 8 do
  small[j], large[j] = new_small(), new_large()
end
local s, l = new_small(), new_large()
local i, k, rounds = 0, 0, 0

-- a value parameter is a copy of its own
local function keep(argument, taken)
  local given = new_large()
  copy_large(argument, given)
  copy_small(given.b, taken) --+1
  --+1
end

i = 0 --+1
while i <= 7 do
  k = 0 --+2
  while k <= 15 do
    small[i + 1].n[k + 1] = 16 * i + k --+2
    large[i + 1].n[k + 1] = 1000 + 16 * i + k --+1
    k = k + 1 --+2
  end --+1
  copy_small(small[i + 1], large[i + 1].a) --+1
  copy_small(large[i + 1], large[i + 1].b) --+1
  copy_small(small[i + 1], large[i + 1].c) --+1
  i = i + 1 --+2
end --+1

for _ = 1, 600000 do
  i = rounds % 8 --+1
  k = (i * 3 + 1) % 8 --+1
  copy_large(large[i + 1], l) --+1
  copy_large(large[k + 1], large[i + 1]) --+1
  copy_large(l, large[k + 1]) --+1
  copy_small(small[i + 1], s) --+1
  copy_small(small[k + 1], small[i + 1]) --+1
  copy_small(s, small[k + 1]) --+1
  copy_small(s, large[i + 1].b) --+1
  copy_small(large[i + 1], small[k + 1]) --+1
  keep(large[k + 1], s) --+1
  copy_small(s, large[k + 1].c) --+1
  large[k + 1].n[i + 1] = rounds % 1000 --+1
  rounds = (rounds + 1) % 1000000 --+1
  --+1
end

local globals = {}
local function put_small(record)
  move(record.n, 1, 16, #globals + 1, globals)
end
local function put_large(record)
  put_small(record)
  put_small(record.a)
  put_small(record.b)
  put_small(record.c)
end
for j = 1, 8 do
  put_small(small[j])
end
for j = 1, 8 do
  put_large(large[j])
end
put_small(s)
put_large(l)
move({i, k, rounds}, 1, 3, #globals + 1, globals)
return globals
