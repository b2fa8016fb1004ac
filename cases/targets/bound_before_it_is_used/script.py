i = 5
a = [0, 0]
i, a[i] = 1, 9
print(i, a)
