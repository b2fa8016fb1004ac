def f(x): return x
print(f(1))
f(x=print('evaluated'))
