size = 1000
ordered = 1
turn = 0
while turn < 10:
    a = [0] * size
    i, seed = 0, 1
    while i < size:
        seed = (seed * 171 + 11213) % 53125
        a[i] = seed
        i = i + 1
    i = size - 1
    while i > 0:
        k = 0
        while k < i:
            if a[k] > a[k + 1]:
                a[k], a[k + 1] = a[k + 1], a[k]
            k = k + 1
        i = i - 1
    ordered = 1
    i = 1
    while i < size:
        if a[i - 1] > a[i]:
            ordered = 0
        i = i + 1
    turn = turn + 1
print("y" if ordered == 1 else "n")
