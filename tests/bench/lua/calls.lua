-- Recursive calls with tables for records. A record's class names all classes that it extends, so that a test is one
-- look; a guard is the field itself, as Lua asks no type.
local Node, CenterNode, WideNode = {}, {}, {}
Node[Node] = true
CenterNode[CenterNode], CenterNode[Node] = true, true
WideNode[WideNode], WideNode[CenterNode], WideNode[Node] = true, true, true

local node = {class = Node, key = 0}
local center = {class = CenterNode, key = 0, width = 0}
local wide = {class = WideNode, key = 0, width = 0, height = 0}
local rounds = 0

local function touch(n, by)
  --+1
  if n.class[WideNode] then
    n.height = (n.height + by) % 1000 --+2
  else
    --+1
    if n.class[CenterNode] then
      n.width = (n.width + by) % 1000 --+2
    else
      n.key = (n.key + by) % 1000 --+1
    end
  end
  --+1
end

local function down(n, m, depth)
  --+1
  if depth > 0 then
    local own = {class = WideNode, key = 0, width = 0, height = 0}
    own.key = m.key + 1 --+1
    --+1
    if n.class[CenterNode] then
      n.width = depth --+1
    end
    touch(n, depth) --+1
    down(n, own, depth - 1) --+1
    m.key = (own.key + n.key) % 1000 --+1
  end
  --+1
end

for _ = 1, 560 do
  down(wide, node, 600) --+1
  down(center, wide, 600) --+1
  down(node, center, 600) --+1
  rounds = (rounds + 1) % 1000000 --+1
  --+1
end

return {node.key, center.key, center.width, wide.key, wide.width, wide.height, rounds}
