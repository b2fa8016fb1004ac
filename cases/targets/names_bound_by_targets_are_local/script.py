a = b = c = 0
def f():
    a, (b, c) = 1, (2, 3)
    for d, e in [(4, 5)]:
        pass
    return a, b, c, d, e
print(f(), a, b, c)
def g():
    x[0] = 1
x = [0]
g()
print(x)
def h():
    print(a)
    a, b = 1, 2
h()
