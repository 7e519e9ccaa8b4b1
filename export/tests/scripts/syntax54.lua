-- What came with Lua 5.2 to 5.4.
local a <const>, b <close> = f(), nil
local bits = 1 << 2 | 3 & 4 ~ 5 >> ~6
local quotient = 7 // 2
;;; -- empty statements
goto done
do goto inner ::inner:: end
::done::
local text = "\x41\u{48}\z
              skipped"
local hex = 0x1p4 + 0x.8p-1
while true do break ; print() end
local _ENV = { print = print, x = 1 }
x = 2
return x
