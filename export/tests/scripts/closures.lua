-- A read in a function runs at an unknown time.
local a
local function get() return a end
a = 1

-- A write in a function can happen at any time after it: nothing is said of the reads behind it.
local b
local function set() b = 1 end
set()
print(b)

-- But before the function exists nothing can have written.
local c
print(c) --! unassigned c
local function later() c = 1 end

-- A captured local's values are never called overwritten.
local d = 1
d = 2
local function show() return d end

-- A function's own locals are judged by its own flow.
local function own()
  local e = 1 --! overwritten e
  e = 2
  return function()
    local f
    return f --! unassigned f
  end
end

-- A function that calls itself through a local without value.
local fact
fact = function(n) return n < 2 and 1 or n * fact(n - 1) end
print(fact(3))

-- The body stands before the name that a function statement writes.
local g
function g() return 1 end
print(g)

local h = 1 --! overwritten h
function h() end
print(h)

-- The table is looked up before the function exists that fills it.
local i
function i.x() i = {} end --! unassigned i@10
