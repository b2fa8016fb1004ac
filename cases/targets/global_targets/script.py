def f():
    global a, b
    a, b = 1, [2]
    b[0] += a
f()
print(a, b)
