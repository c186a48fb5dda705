i, m = 0, 0
while i < 9000000:
    m = (m + i * 3) % 65521
    i = i + 1
