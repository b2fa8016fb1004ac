def f(n):
    if n == 1: return f()
    return f(n - 1)
f(200)
