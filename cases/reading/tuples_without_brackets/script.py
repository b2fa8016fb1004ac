x = 1, 2
y = 3,
print(x, y)
1, 2
x += 3, 4
print(x)
def both(a, b):
    return b, a
def one(a):
    return a,
print(both(1, 2), one((3,)))
for n in 1, 'two', (3,):
    print(n)
for n in one('only'):
    print(n)
for n in 4,:
    print(n)
z = 1 if x else 2, 3 or 4, not 5
print(z)
w = (1, 2), 3
print(w, len(w))
s = 1,; t = 'a', 'b'
print(s, t)
