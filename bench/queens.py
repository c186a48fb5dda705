size, times = 8, 30
column = [0] * size
found, turn = 0, 0
while turn < times:
    found = 0
    row = 0
    column[0] = -1
    while row >= 0:
        column[row] = column[row] + 1
        if column[row] == size:
            row = row - 1
        else:
            free, k = 1, 0
            while k < row and free == 1:
                apart = column[row] - column[k]
                if apart == 0 or apart == row - k or apart == k - row:
                    free = 0
                k = k + 1
            if free == 1 and row == size - 1:
                found = found + 1
            elif free == 1:
                row = row + 1
                column[row] = -1
    turn = turn + 1
print("y" if found == 92 else "n")
