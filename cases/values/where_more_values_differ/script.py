def f(x):
    return x
for k in range(16):
    try:
        if k == 0: {}.pop([])
        elif k == 1: print(int(b'12'))
        elif k == 2: print(ord(b'a'))
        elif k == 3: print(int('0' * 5000))
        elif k == 4: print(f(x=1))
        elif k == 5: print(len('a' * 1048577))
        elif k == 6: print(len(b'a' * 1048577))
        elif k == 7: print(ValueError(1).args)
        elif k == 8: print(range(3).stop)
        elif k == 9: print((5).real)
        elif k == 10: print(int('\u00a07'))
        elif k == 11: print(int('\x1c7'))
        elif k == 12: chr(1 << 31)
        elif k == 13: chr(55296)
        elif k == 14: print(list[0])
        else: print(tuple[1])
    except Exception as e:
        print(k, repr(e))
