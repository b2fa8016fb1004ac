d = {1: 2}
def tell(n):
    try:
        if n == 0: d + d
        if n == 1: d * 2
        if n == 2: d < d
        if n == 3: -d
        if n == 4: d | d
        if n == 5: abs(d)
    except TypeError as e:
        print(n, e)
for n in range(6): tell(n)
