--!strict
-- What Luau has of its own.
export type Map<K, V = any> = { [K]: V, read size: number } & typeof(setmetatable({}, {}))
type Fn = (a: number, ...string) -> (boolean, ...any)
type function id(t) return t end
local a: number?, b: { x: number } | nil
a += 1 --! unassigned a
local c: Map<string, Map<string, number>> = {}
local d = `value {c.x} and {`inner {b}`}` --! unassigned b
local e = if d then 1 elseif c then 2 else 3
local f = (e :: any) :: number
local g: number
for i: number, v: string in pairs(c) do
  if v == "" then continue end
  g = i
end
print(g)
local continue = 1
continue += 2
print(continue)
repeat
  local h: boolean
  if f then continue end
  h = true
until h
@native local function k<T>(x: T, ...: number): (T, ...number) return x, ... end
local l = k<<number>>(1_000, 0b11, 0xFF_FF, 5i)
local m = 1 --! overwritten m
m = l // 2
m //= 2
m ..= "x"
print(m)
local type = 1
type = type + 1
local function pack<T, U...>(first: T, ...: U...): U... return ... end
type Packs<T... = (number, string)> = (T...) -> ...any
print(pack(1), pack)
