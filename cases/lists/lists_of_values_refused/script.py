def tell(n):
    try:
        if n == 0: list()
        if n == 1: list(1)
        if n == 2: list(None)
        if n == 3: list([], [])
        if n == 4: bytes([256])
        if n == 5: bytes(['a'])
        if n == 6: bytes({1: 2})
        if n == 7: tuple(5)
        if n == 8: min([1], [2])
        if n == 9: abs([1])
        if n == 10: ord(['a'])
        if n == 11: range([1])
    except TypeError as e:
        print(n, 'TypeError', e)
    except ValueError as e:
        print(n, 'ValueError', e)
for n in range(12): tell(n)
