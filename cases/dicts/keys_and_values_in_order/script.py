def f(x):
    print(x)
    return x
d = {f(1): f('a'), f(2): f('b')}
print(d)
