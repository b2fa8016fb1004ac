def f():
    for x in range(3): pass
    return x
x = 'global'
print(f(), x)
for x in 'ab': pass
print(x)
for (y) in range(2): y = y * 10
print(y)
