def f():
    raise ValueError('first')

try:
    f()
except ValueError:
    print('seen')
    1 // 0
