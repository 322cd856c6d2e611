-- A small generator, DIV and MOD, a sum that is kept in range.
local x, y, sum, rounds = 0, 0, 0, 0

x = 1 --+1
for _ = 1, 1500000 do
  x = (x * 1109 + 12345) % 65536 --+1
  y = x // 7 - x % 13 --+1
  --+1
  if y > 4000 then
    sum = (sum + y * 3) % 1000003 --+2
  else
    sum = sum - y --+1
    --+1
    if sum < 0 then
      sum = -sum --+1
    end
  end
  rounds = (rounds + 1) % 1000000 --+1
  --+1
end

return {x, y, sum, rounds}
