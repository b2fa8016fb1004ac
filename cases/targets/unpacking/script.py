a, b = 1, 2
print(a, b)
a, b = b, a
print(a, b)
(c, d), e = [3, 4], 5
print(c, d, e)
[f, [g]] = (6, 'h')
print(f, g)
h, = 'x'
i, j = {'k': 1, 'l': 2}
k, l, m = range(3)
n, o = b'no'
print(h, i, j, k, l, m, n, o)
