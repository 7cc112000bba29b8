-- The meadow of `flame trial`, as a plain loop over tables: lua meadow.lua POPULATION OUT N
--
-- Reads a population of format 2 and writes the files that `flame run --format 2` writes. Agents are tables {cell, energy}. Where
-- agents meet in a cell, how many of the others are there is counted once in a table. bench/peers runs it.

local function counted(agents)
  local cells, count = {}, {}
  for _, agent in ipairs(agents) do
    local cell = agent[1]
    cells[#cells + 1] = cell
    count[cell] = (count[cell] or 0) + 1
  end
  table.sort(cells)
  return cells, count
end

local function before(one, other)
  return one[1] < other[1] or one[1] == other[1] and one[2] < other[2]
end

-- The rabbits and foxes that come after these, in order, and the cells of those that were there, in order.
local function iterate(rabbits, foxes, cells, grass)
  for _, rabbit in ipairs(rabbits) do
    rabbit[2] = rabbit[2] + grass
  end
  for _, fox in ipairs(foxes) do
    fox[2] = fox[2] - 1
    fox[1] = (fox[1] * 7 + 1) % cells
  end
  local rabbit_cells, rabbits_in = counted(rabbits)
  local fox_cells, foxes_in = counted(foxes)
  local next_rabbits, next_foxes = {}, {}
  for _, rabbit in ipairs(rabbits) do
    local cell, energy = rabbit[1], rabbit[2]
    if not (foxes_in[cell] and energy % 2 == 0) then
      if energy >= 20 then
        energy = energy // 2
        next_rabbits[#next_rabbits + 1] = {(cell + 1) % cells, energy}
      end
      next_rabbits[#next_rabbits + 1] = {cell, energy}
    end
  end
  for _, fox in ipairs(foxes) do
    local cell = fox[1]
    local energy = fox[2] + math.min(3, rabbits_in[cell] or 0)
    if energy > 0 then
      if energy >= 24 then
        energy = energy // 2
        next_foxes[#next_foxes + 1] = {cell, energy}
      end
      next_foxes[#next_foxes + 1] = {cell, energy}
    end
  end
  table.sort(next_rabbits, before)
  table.sort(next_foxes, before)
  return next_rabbits, next_foxes, rabbit_cells, fox_cells
end

local function agent_rows(agents)
  local texts = {}
  for place, agent in ipairs(agents) do
    texts[place] = "[" .. agent[1] .. "," .. agent[2] .. "]"
  end
  return table.concat(texts, ",")
end

local function message_rows(cells)
  return #cells == 0 and "" or "[" .. table.concat(cells, "],[") .. "]"
end

local function read_rows(text, name)
  local rows = {}
  for cell, energy in text:match('"' .. name .. '", ?"rows": ?(%b[])'):gmatch("%[(%-?%d+), ?(%-?%d+)%]") do
    rows[#rows + 1] = {math.tointeger(cell), math.tointeger(energy)}
  end
  return rows
end

local population, out, count = table.unpack(arg)
local text = assert(io.open(population)):read("a")
local cells, grass = text:match('"environment": ?%[(%d+), ?(%d+)%]')
cells, grass = math.tointeger(cells), math.tointeger(grass)
local rabbits, foxes = read_rows(text, "Rabbit"), read_rows(text, "Fox")
local rabbit_cells, fox_cells
for iteration = 1, math.tointeger(count) do
  rabbits, foxes, rabbit_cells, fox_cells = iterate(rabbits, foxes, cells, grass)
  local file = assert(io.open(out .. iteration .. ".json", "w"))
  file:write('{"states":{"version":2,"itno":', iteration, ',"environment":[', cells, ",", grass,
    '],"agents":[{"name":"Rabbit","rows":[', agent_rows(rabbits), ']},{"name":"Fox","rows":[', agent_rows(foxes),
    ']}],"boards":[{"name":"rabbit_at","rows":[', message_rows(rabbit_cells),
    ']},{"name":"fox_at","rows":[', message_rows(fox_cells), "]}]}}\n")
  file:close()
  print("iteration " .. iteration .. " agents " .. #rabbits + #foxes .. " messages " .. #rabbit_cells + #fox_cells)
end
