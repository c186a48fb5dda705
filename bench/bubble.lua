local size = 1000
local sorted = 1
local round = 0
while round < 10 do
  local a = {}
  local i, seed = 0, 1
  while i < size do
    seed = (seed * 171 + 11213) % 53125
    a[i] = seed
    i = i + 1
  end
  i = size - 1
  while i > 0 do
    local k = 0
    while k < i do
      if a[k] > a[k + 1] then
        local held = a[k]
        a[k] = a[k + 1]
        a[k + 1] = held
      end
      k = k + 1
    end
    i = i - 1
  end
  sorted = 1
  i = 1
  while i < size do
    if a[i - 1] > a[i] then
      sorted = 0
    end
    i = i + 1
  end
  round = round + 1
end
print(sorted == 1 and "y" or "n")
