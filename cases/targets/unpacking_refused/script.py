def tell(n):
    try:
        if n == 0: a, b = 1, 2, 3
        if n == 1: a, b = 1,
        if n == 2: a, = ()
        if n == 3: (a, b), c = (1,), 2
    except ValueError as e:
        print(n, 'ValueError', e)
for n in range(4): tell(n)
def other(n):
    try:
        if n == 0: a, b = 5
        if n == 1: a, b = None
        if n == 2: a, b = print
    except TypeError as e:
        print(n, 'TypeError', e)
for n in range(3): other(n)
