def f(print): return print + 1
print(f(2))
