a = [1]; b = a
a *= 2
print(a, b)
a = b
a = a + [2]
print(a, b)
