-- Tests, guards and fields in a chain of 6 records. A record's class names all classes that it extends; a guard is the
-- field itself, as Lua asks no type.
local B0, B3, B5 = {}, {}, {}
B0[B0] = true
B5[B0], B5[B3], B5[B5] = true, true, true

local r = {class = B5, f0 = 0, f1 = 0, f2 = 0, f3 = 0, f4 = 0, f5 = 0}
local copy = {class = B5, f0 = 0, f1 = 0, f2 = 0, f3 = 0, f4 = 0, f5 = 0}
local first = {class = B0, f0 = 0}
local rounds = 0

local function use(p)
  --+1
  if p.class[B5] then
    p.f5 = (p.f0 + rounds) % 1000 --+1
    p.f0 = p.f3 --+2
  else
    p.f0 = (p.f0 + 1) % 1000 --+1
  end
  --+1
  if p.class[B3] then
    p.f3 = p.f5 --+1
  end
  --+1
end

for _ = 1, 650000 do
  use(r) --+1
  use(first) --+1
  copy.f5 = r.f0 --+1
  r.f1 = copy.f5 - first.f0 --+1
  first.f0 = r.f0 --+1
  rounds = (rounds + 1) % 1000000 --+1
  --+1
end

local globals = {}
for _, record in ipairs{r, copy} do
  table.move({record.f0, record.f1, record.f2, record.f3, record.f4, record.f5}, 1, 6, #globals + 1, globals)
end
table.move({first.f0, rounds}, 1, 2, #globals + 1, globals)
return globals
