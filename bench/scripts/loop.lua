-- what loop.clj does
local i, acc = 0, 0
while i < @N@ do
  i, acc = i + 1, (acc * 31 + i // 3 + 7) % 1000003
end
print(acc)
