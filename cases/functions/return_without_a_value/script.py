def f(x):
    if x: return
    print('here')
print(f(1))
print(f(0))
