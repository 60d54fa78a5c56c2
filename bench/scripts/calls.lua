-- what calls.clj does
local function mix(a, b)
  return (a * 31 + b) % 1000003
end
local function turn(acc, i)
  return mix(acc, i // 3)
end
local i, acc = 0, 0
while i < @N@ do
  i, acc = i + 1, turn(acc, i)
end
print(acc)
