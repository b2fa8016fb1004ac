a = [1]; b = [2, 3]
c = a + b
print(c, a + [], [] + [], c is None)
c.append(4)
print(a, b, c)
print(a * 3, 2 * b, a * 0, a * -1, b * True, False * b)
r = [a] * 2
a.append(9)
print(r)
