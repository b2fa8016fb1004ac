def f():
    try:
        return [][1]
    finally:
        print('last')

f()
