-- What came with Lua 5.5.
global print, x <const>
global <const> *
global function f(...rest) return rest end
local <const> a, b = 1, 2
global y = a
local x = 1 --! overwritten x
x = 2
global x
x = 3
return y
