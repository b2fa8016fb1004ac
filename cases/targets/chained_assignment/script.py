a = b = c = [1]
a.append(2)
print(a, b, c)
x = y, z = 1, 2
print(x, y, z)
a[0] = b = 7
print(a, b, c)
