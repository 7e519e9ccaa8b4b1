-- The value is read before the name is written.
local a
a = a --! unassigned a@5

-- Twice in one statement.
local b = 1 --! overwritten b
b, b = 2, 3 --! overwritten b@1
print(b)

-- A target's index is read before names are written.
local c
c, t[c] = 1, 2 --! unassigned c@6

-- A field write reads the table and writes no local.
local d
d.x = 1 --! unassigned d

-- Swapping reads both.
local e, f = 1, 2
e, f = f, e
print(e, f)

-- A table constructor and a call read in the order of the text.
local g
g = { g, h = g } --! unassigned g@7
local h
h = use(h)(h) --! unassigned h@9

-- Shadowed names are locals of their own.
local i = 1
do
  local i = i --! overwritten i@9
  i = 2
  print(i)
end
print(i)
