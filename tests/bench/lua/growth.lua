-- Arithmetic, fields, elements, copies, calls, tests and guards. A record's class names all classes that it extends; a
-- guard is the field itself, as Lua asks no type. A set is a number: bit i for element i.
local Place, Member = {}, {}
Place[Place] = true
Member[Member], Member[Place] = true, true

local function copy_place(from, to)
  to.floor, to.wing, to.room, to.shelf = from.floor, from.wing, from.room, from.shelf
  to.row, to.box, to.wet, to.dark = from.row, from.box, from.wet, from.dark
  to.doors, to.keys, to.days, to.hours = from.doors, from.keys, from.days, from.hours
end

local function copy_member(from, to)
  copy_place(from, to)
  to.card, to.expiry, to.visits, to.last = from.card, from.expiry, from.visits, from.last
  to.first, to.code, to.staff, to.guest = from.first, from.code, from.staff, from.guest
  to.groups, to.courses, to.tools, to.rooms = from.groups, from.courses, from.tools, from.rooms
end

local function new_place()
  return {
    class = Place, floor = 0, wing = 0, room = 0, shelf = 0, row = 0, box = 0,
    wet = false, dark = false, doors = 0, keys = 0, days = 0, hours = 0,
  }
end

local function new_member()
  return {
    class = Member, floor = 0, wing = 0, room = 0, shelf = 0, row = 0, box = 0,
    wet = false, dark = false, doors = 0, keys = 0, days = 0, hours = 0,
    card = 0, expiry = 0, visits = 0, last = 0, first = 0, code = 0,
    staff = false, guest = false, groups = 0, courses = 0, tools = 0, rooms = 0,
  }
end

local members = {}
for j = 0, 3 do
  members[j] = new_member()
end
local one, place = new_member(), new_place()
local seed, i, k, sum, limit, day, hits, misses, rounds = 0, 0, 0, 0, 0, 0, 0, 0, 0
local some, all, open = 0, 0, false

-- answers `open`
local function visit(p, day)
  local code = (p.room * 31 + day) % 97 --+1
  p.room = code --+1
  local open = false --+1
  --+1
  if p.class[Member] then
    p.visits = (p.visits + 1) % 1000 --+1
    local step = p.expiry - day --+1
    open = step >= 0 and p.groups >> code % 32 & 1 == 1 --+1
  end
  --+1
  return open
end

-- a value parameter is a copy of its own; answers `sum`
local function add(argument, sum)
  local m = new_member()
  copy_member(argument, m)
  local part = m.floor + m.wing + m.box + m.visits --+1
  local rest = part // 3 --+1
  --+2
  return (sum + part * 7 - rest) % 100003
end

limit = 4 --+1
all = 0xffffffff --+1
some = 0x3fe --+1
--+1
for j = 0, 3 do
  --+1
  members[j].box = j --+1
  members[j].wing = 2 * j --+1
  members[j].expiry = 40 + 10 * j --+1
  members[j].groups = some --+1
  --+2
end
--+1
for _ = 1, 330000 do
  seed = (seed * 1109 + 12345) % 65536 --+1
  i = seed // 16 % limit --+1
  k = (i + 1) % 4 --+1
  day = seed // 64 % 80 --+1
  open = visit(members[i], day) --+1
  --+1
  if open then
    hits = (hits + 1) % 1000000 --+2
  else
    misses = (misses + 1) % 1000000 --+1
  end
  copy_member(members[k], one) --+1
  copy_place(one, place) --+1
  one.floor = place.room + 1 --+1
  sum = add(one, sum) --+1
  open = visit(place, day) --+1
  members[k].groups = (some | 1 << day % 32) & all --+1
  rounds = (rounds + 1) % 1000000 --+1
  --+1
end

local PLACE <const> = "floor wing room shelf row box wet dark doors keys days hours"
local MEMBER <const> = PLACE .. " card expiry visits last first code staff guest groups courses tools rooms"
local globals = {}
local function put(record, names)
  for name in names:gmatch("%a+") do
    local cell = record[name]
    globals[#globals + 1] = cell == true and 1 or cell or 0
  end
end
for j = 0, 3 do
  put(members[j], MEMBER)
end
put(one, MEMBER)
put(place, PLACE)
local rest = {seed, i, k, sum, limit, day, hits, misses, rounds, some, all, open and 1 or 0}
table.move(rest, 1, #rest, #globals + 1, globals)
return globals
