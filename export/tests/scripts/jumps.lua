-- error leaves: the arm brings nothing to the read below.
local a
if cond() then
  a = 1
  error("no")
end
print(a) --! unassigned a

-- Code that cannot run counts all the same: its value goes on.
local z
if cond() then
  error("no")
  z = 1
end
print(z)

-- A local error does not.
do
  local error = print
  local b
  if cond() then
    b = 1
    error("on")
  end
  print(b)
end

-- return leaves too.
local function early()
  local c
  if cond() then
    c = 1
    do return end
  end
  return c --! unassigned c
end

-- goto goes on at its label, past what stands between.
do
  local d = 1
  goto done
  d = 2
  ::done::
  print(d)
end

for i = 1, 3 do
  local e = i --! overwritten e
  if cond() then goto continue end
  e = 2
  print(e)
  ::continue::
end

-- A loop made of a label and a goto.
do
  local f
  ::top::
  print(f)
  f = 1
  if cond() then goto top end
end

-- break leaves the innermost loop only.
local g = 1 --! overwritten g
while cond() do
  while true do break end
  g = 2 --! overwritten g
end
