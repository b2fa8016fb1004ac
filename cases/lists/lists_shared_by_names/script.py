def add(xs, x):
    xs.append(x)
    return xs
a = []
b = add(a, 1)
add(b, 2)
print(a, b)
c = [a, b]
c[0].append(3)
print(c, a)
