-- Written at the end of a turn, read at the start of the next one: a path brings a value.
local a
while cond() do
  print(a)
  a = 1
end

-- The loop overwrites what it wrote, and nobody reads it.
local b = 1 --! overwritten b
while cond() do
  b = 2 --! overwritten b
end

-- A local of the body is a new one in every turn.
for i = 1, 3 do
  local c
  print(c) --! unassigned c
  c = i
end

-- The condition of a repeat sees the body's locals.
repeat
  local d
until d --! unassigned d

repeat
  local e
  e = cond()
until e

-- `while true` is left by break alone.
local f
while true do
  f = cond()
  if f then break end
end
print(f)

-- `while false` never runs its body, but what stands there is listed all the same.
local g
while false do
  print(g) --! unassigned g
end

-- Past an endless loop no written value arrives.
do
  local h
  h = 1
  print(h)
  while true do end
  print(h) --! unassigned h
end

-- Generic and numeric headers run before their bodies.
local j
for k in pairs(j) do j = k end --! unassigned j, overwritten j@22
local l = 1
for m = l, 2 do l = m end
print(l)
