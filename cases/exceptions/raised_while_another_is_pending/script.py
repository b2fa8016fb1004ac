def f():
    try:
        raise ValueError('first')
    finally:
        print('cleaning')
        raise KeyError('second')
try:
    f()
except ValueError:
    print('not here')
except KeyError as e:
    print(e)
