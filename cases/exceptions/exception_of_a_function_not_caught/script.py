def f():
    for k in range(3):
        try:
            if k == 1: g()
        finally:
            print('left', k)
def g():
    raise KeyError('gone')
f()
