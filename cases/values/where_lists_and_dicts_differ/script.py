def f():
    pass
a = [1]
b = a
a *= 2
print(a, b, list)
d = {1: 0, 2: 0}
for k in d:
    print(k)
    if k == 1:
        d.pop(1)
        d[3] = 0
t = []
u = (t,)
t.append(u)
print(u)
try:
    {[]: 0, 1: 1, 2: 2, 3: 3, 4: 4, 5: 5, 6: 6, 7: 7, 8: 8, 9: 9, 10: 10, 11: 11, 12: 12, 13: 13, 14: 14, 15: print('all')}
except TypeError as e:
    print(e)
for k in range(22):
    try:
        if k == 0: list()
        elif k == 1: bytes({1: 2})
        elif k == 2: bytes(['a'])
        elif k == 3: bytes(('a',))
        elif k == 4: [1] < [2]
        elif k == 5: {True: 1}
        elif k == 6: {None: 1}
        elif k == 7: {(1, 2): 3}
        elif k == 8: True in {1: 2}
        elif k == 9: {1: 2} | {3: 4}
        elif k == 10: {}.pop(1, 0)
        elif k == 11: a.sort()
        elif k == 12: a.extend(b)
        elif k == 13: d.keys()
        elif k == 14: d.items()
        elif k == 15: 'a b'.split()
        elif k == 16: ','.join({'a': 1})
        elif k == 17: ','.join(range(0))
        elif k == 18: 'a'.encode('utf-8')
        elif k == 19: [0] * 1048577
        elif k == 20: [f] == [f]
        else: f in [f]
    except Exception as e:
        print(repr(e))
deep = other = None
for k in range(201):
    deep = [deep]
    other = [other]
try:
    print('a', deep)
except RecursionError as e:
    print(e)
deep == other
