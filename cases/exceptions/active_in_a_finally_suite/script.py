def f():
    try:
        raise ValueError('v')
    finally:
        try:
            raise
        except ValueError as e:
            print('again', e)
try:
    f()
except ValueError as e:
    print('out', e)
