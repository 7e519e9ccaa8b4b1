-- Genset governor: one pass of the speed loop.
local rated, idle = 1500, 700
local target, trim = rated
if load() > 90 then
  trim = 4
  target = rated - trim
elseif cold() then
  target = idle + trim
end
local rack = 0
rack = preset(target)
repeat
  local gap = target - speed()
  if gap > 300 then
    error("overspeed")
    cut_fuel()
  end
  rack = rack + gap / 8
  rack = limited(gap)
until settled(gap)
set_rack(rack)
