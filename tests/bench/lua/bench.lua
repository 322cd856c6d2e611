-- Runs the work of a benchmark program in Lua: lua5.4 bench.lua NAME count | time
--
-- NAME.lua does the work of NAME.img: a chunk that answers the numbers of the image's globals, as the store has them.
-- A comment --+N in it stands where N statements of the image are done. `count` counts these, and prints how many they
-- are; `time` runs the chunk as it stands, and prints the processor's seconds. The globals follow, one to a line.
local name, mode = ...
local folder = arg[0]:match("^(.*/)") or ""
local file <close> = assert(io.open(folder .. name .. ".lua"))
local text = file:read("a")

if mode == "count" then
  -- one counter for the chunk and all its functions
  text = "local steps = 0 " .. text:gsub("%-%-%+(%d+)", "steps = steps + %1 "):gsub("\nreturn ", "\nreturn steps, ")
  local steps, globals = assert(load(text, "=" .. name))()
  print(steps)
  print(table.concat(globals, "\n"))
else
  local work = assert(load(text, "=" .. name))
  local start = os.clock()
  local globals = work()
  print(os.clock() - start)
  print(table.concat(globals, "\n"))
end
