size, times = 8000, 250
struck = [0] * size
count, turn = 0, 0
while turn < times:
    count = 0
    i = 0
    while i < size:
        struck[i] = 0
        i = i + 1
    i = 2
    while i < size:
        if struck[i] == 0:
            count = count + 1
            k = i + i
            while k < size:
                struck[k] = 1
                k = k + i
        i = i + 1
    turn = turn + 1
print("y" if count == 1007 else "n")
