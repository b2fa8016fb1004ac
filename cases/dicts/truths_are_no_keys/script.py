d = {'a': 5}
def tell(n):
    try:
        if n == 0: d[True] = 1
        if n == 1: {False: 1}
        if n == 2: d[None] = 1
        if n == 3: d[(1,)] = 1
        if n == 4: {b'a': 1}
        if n == 5: d[True]
        if n == 6: True in d
        if n == 7: d.get(True)
        if n == 8: d.pop(None)
        if n == 9: del d[True]
        if n == 10: [] in {}
        if n == 11: {}.get(())
        if n == 12: {[]: 1}
    except TypeError as e:
        print(n, e)
for n in range(13): tell(n)
print(d)
