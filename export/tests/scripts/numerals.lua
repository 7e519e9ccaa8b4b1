-- LuaJIT's numerals.
local a = 1LL + 2ULL + 0x7fffffffffffffffLL + 12.5i + 0b1010
local b
print(a, b) --! unassigned b
