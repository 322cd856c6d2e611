-- A door program: members with card number, last day and groups, and cards from a small generator.
local members = {}
for i = 0, 31 do
  members[i] = {card = 0, expiry = 0, groups = 0}
end
local seed, card, day, opened, refused, door, open = 0, 0, 0, 0, 0, 0, false

local function next_seed(seed)
  --+2
  return (seed * 1221 + 3013) % 65536
end

local function decide(card, day)
  --+1
  local i = 0
  while i < 32 do
    --+2
    if members[i].card == card then
      --+2
      return day <= members[i].expiry and members[i].groups & door ~= 0
    end
    i = i + 1 --+2
  end
  --+2
  return false
end

local function fill()
  --+1
  for i = 0, 31 do
    --+1
    members[i].card = 1000 + 37 * i --+1
    members[i].expiry = 100 + 20 * (i % 10) --+1
    members[i].groups = 1 << i % 8 | 1 << i * 5 % 16 --+1
    --+2
  end
  --+1
  door = 1 << 1 | 1 << 4 | 1 << 6 | 1 << 10 --+1
  --+1
end

fill() --+1
for _ = 1, 120000 do
  seed = next_seed(seed) --+1
  card = 1000 + 37 * (seed // 64 % 40) --+1
  seed = next_seed(seed) --+1
  day = seed // 64 % 320 --+1
  open = decide(card, day) --+1
  --+1
  if open then
    opened = (opened + 1) % 1000000 --+2
  else
    refused = (refused + 1) % 1000000 --+1
  end
  --+1
end

local globals = {}
for i = 0, 31 do
  local member = members[i]
  table.move({member.card, member.expiry, member.groups}, 1, 3, 3 * i + 1, globals)
end
table.move({seed, card, day, opened, refused, door, open and 1 or 0}, 1, 7, 97, globals)
return globals
