a = [1, 2, 3]
i = 0
a[i], a[i + 1] = a[i + 1], a[i]
print(a)
i, a[i] = 2, 'x'
print(i, a)
