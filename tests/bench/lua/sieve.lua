-- The sieve of Eratosthenes.
local composite, none = {}, {}
local count, rounds = 0, 0
for i = 0, 3999 do
  composite[i], none[i] = false, false
end

local function primes()
  table.move(none, 0, 3999, 0, composite) --+1
  local count = 0 --+1
  --+1
  for i = 2, 3999 do
    --+2
    if not composite[i] then
      count = count + 1 --+1
      local k = i + i --+1
      while k < 4000 do
        composite[k] = true --+2
        k = k + i --+2
      end --+1
    end
    --+2
  end
  --+2
  return count
end

for _ = 1, 240 do
  count = primes() --+1
  rounds = (rounds + 1) % 1000000 --+1
  --+1
end

local globals = {}
for i = 0, 3999 do
  globals[i + 1], globals[i + 4001] = composite[i] and 1 or 0, none[i] and 1 or 0
end
globals[8001], globals[8002] = count, rounds
return globals
