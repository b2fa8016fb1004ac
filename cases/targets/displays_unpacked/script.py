a, b, c = 1, 2, 3
a, b, c = c, a, b
print(a, b, c)
d, = a + b,
print(d)
(e, (f, g)), h = (a, 'fg'), [d]
print(e, f, g, h)
e, f = f, (e, g)
print(e, f)
h[0], h = h, h[0]
print(h)
def rotated(n):
    x, y, z = 'x', 'y', ()
    while n:
        x, y, z = y, z, x
        n, m = n - 1, n
    return x, y, z, m
print(rotated(4))
def fibonacci(n):
    a, b = 0, 1
    for i in range(n):
        a, b = b, a + b
    return a
print(fibonacci(90))
def said(what):
    print(what)
    return what
p = [0, 0]
p[said(0)], p[said(1)] = said('left'), said('right')
print(p)
try:
    a, b = said('raises'), c + 'text'
except TypeError:
    print(a, b)
try:
    a, b, c = said('too'), said('few')
except ValueError:
    print(a, b, c)
try:
    a, b = said('too'), said('many'), said('of them')
except ValueError:
    print(a, b, c)
try:
    a, p[2], b = 'bound', 'refused', 'never bound'
except IndexError:
    print(a, b, p)
a = b, c = 'one', 'other'
print(a, b, c)
