def f(n):
    print(n)
    return a
a = [0, 0, 0]
def i(n):
    print('index', n)
    return n
f('x')[i(0)] = f('y')[i(1)] = len(f('right')) + 40
print(a)
f('u')[i(1)], f('v')[i(2)] = f('w')[0], 5
print(a)
