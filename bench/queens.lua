local size, times = 8, 30
local column = {}
local found, round = 0, 0
while round < times do
  found = 0
  local row = 0
  column[0] = -1
  while row >= 0 do
    column[row] = column[row] + 1
    if column[row] == size then
      row = row - 1
    else
      local free, k = 1, 0
      while k < row and free == 1 do
        local apart = column[row] - column[k]
        if apart == 0 or apart == row - k or apart == k - row then
          free = 0
        end
        k = k + 1
      end
      if free == 0 then
      elseif row == size - 1 then
        found = found + 1
      else
        row = row + 1
        column[row] = -1
      end
    end
  end
  round = round + 1
end
print(found == 92 and "y" or "n")
