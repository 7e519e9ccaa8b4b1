-- A mark behind a line names what is found there: kind, local, and the column where that is not plain.

-- One arm does not count for the other.
local a
if cond() then
  a = 1
else
  print(a) --! unassigned a
end

-- Some path brings a value: not listed.
local b
if cond() then b = 1 end
print(b)

-- Never written at all.
local c
print(c) --! unassigned c

-- A value given later, read before.
local d
print(d) --! unassigned d
d = 1
print(d)

-- Only the first empty read is listed.
local e
print(e, e) --! unassigned e@7
print(e)

-- The value of one path is overwritten, but another path reads it.
local f = 1
if cond() then f = 2 end
print(f)

-- All paths overwrite the first value.
local g = 1 --! overwritten g
if cond() then g = 2 else g = 3 end
print(g)

-- A value that nobody reads and nobody overwrites is none of this check's business.
local h = 1
h = f(h)

-- elseif arms.
local i
if cond() then
  i = 1
elseif cond(i) then --! unassigned i
  i = 2
end
print(i)

-- The second name has no value, the call fills both of the other pair.
local j, k = 1
print(j, k) --! unassigned k
local l, m = pair()
print(l, m)
local n, o = (pair())
print(n, o) --! unassigned o

-- An underscore keeps a local out.
local _p
print(_p)
local _q = 1
_q = 2
