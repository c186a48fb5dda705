local size, times = 8000, 250
local struck = {}
local count, round = 0, 0
while round < times do
  count = 0
  local i = 0
  while i < size do
    struck[i] = 0
    i = i + 1
  end
  i = 2
  while i < size do
    if struck[i] == 0 then
      count = count + 1
      local k = i + i
      while k < size do
        struck[k] = 1
        k = k + i
      end
    end
    i = i + 1
  end
  round = round + 1
end
print(count == 1007 and "y" or "n")
