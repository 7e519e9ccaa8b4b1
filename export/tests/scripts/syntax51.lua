-- What Lua 5.1 has, and the later ones too.
local t = { 1, 2; 3, x = 1, ["y"] = 2, [1 + 1] = 3, f = function(...) return ... end, }
local s = 'a\'b\65\n' .. "c\"d\\" .. [[long
string]] .. [==[ ]] ]==]
--[[ a long
comment ]] --[==[ ]] ]==]
local n = 0xFF + 1e10 + .5 + 3. + 3e-2 + 0x10
local function f(a, b, ...)
  local x, y = ..., select("#", ...)
  return (a), -b ^ 2, not x == y, #t, a .. b .. "c", a % b * 2 / 3
end
function t.f.g(a) return a end
function t:m(a) return self, a end
t:m "string" ; t.f { 1 } ; f(1)(2)(3) ; (f)(4)
t.x, t["y"], t[1] = 1, 2, 3
for i = 10, 1, -1 do if i == 5 then break end end
for k, v in pairs(t) do print(k, v) end
while n > 1e9 and not s do n = n / 2 end
repeat local z = f() until z or n <= 1
do local do_it = f end
if n ~= 1 then elseif n >= 2 then else end
return f, t;
