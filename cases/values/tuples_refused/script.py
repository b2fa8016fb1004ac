def tell(kind, n):
    try:
        if n == 0:
            (1,) + 'a'
        elif n == 1:
            (1,) * (2,)
        elif n == 2:
            (1, 2) < (1, 3)
        elif n == 3:
            (1,) + 1
        elif n == 4:
            tuple(1)
        elif n == 5:
            tuple()
        elif n == 6:
            (1, 2)[2]
        elif n == 7:
            (1, 2)['a']
        elif n == 8:
            bytes((1, 256))
        elif n == 9:
            bytes(('a',))
        elif n == 10:
            -(1,)
        elif n == 11:
            (1,)(2)
        elif n == 12:
            tuple(range(65536))
        elif n == 13:
            (1,) * 65536
        elif n == 14:
            tuple(range(1 << 62))
        elif n == 15:
            (0,) * 40000 + (0,) * 40000
        elif n == 16:
            abs((1,))
        elif n == 17:
            int((1,))
    except kind as e:
        print(n, e)
for n in range(18):
    tell((TypeError, ValueError, IndexError, OverflowError), n)
print(len(tuple(range(65535))), len((1,) * 65535), len((0,) * 40000 + (0,) * 25535))
try:
    raise ValueError('caught')
except (TypeError, ValueError) as e:
    print(e)
try:
    try:
        raise ValueError('not caught')
    except ():
        print('no')
except ValueError as e:
    print(e)
try:
    try:
        raise ValueError('a')
    except (ValueError, 1):
        print('no')
except TypeError as e:
    print(e)
