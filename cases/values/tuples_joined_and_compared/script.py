t = (1, 'two', (3, 4))
print(t + () + (5,), t * 2, 0 * t, t * -1, True * ('a',))
print((1, 2) + (3,) == (1, 2, 3), (1, True) == (True, 1), (1, 2) != (1, 3), () == (), (1,) == 1, (1,) == 'a')
print((1, (2, b'a')) == (1, (2, b'a')), (1, (2, b'a')) == (1, (2, 'a')), ('a', range(3)) == ('a', range(0, 3, 1)))
print(tuple('ab\xe9'), tuple(b'\x00\xff'), tuple(range(10, 0, -4)), tuple(t), tuple(()) is None)
print(bytes((1, 2, True)), bytes(()), len(t), bool(()), bool((0,)), str((1, 'a')), repr(('it\'s',)))
print((ValueError('a'), KeyError('b'), KeyError()), ValueError((1,)), ValueError((1, 2)))
print((print, range, ValueError), (None, True, b'x'), tuple)
def f():
    return 1
print((f, 1) == (1, f), (f,) == (f, f), (f,))
try:
    (1, f) == (1, f)
except TypeError as e:
    print(e)
try:
    (2, f) == (2, f, 3)
    (2, f) == (3, f)
    (2, f) in ((3, f), (2, f))
except TypeError as e:
    print('in:', e)
for item in (1, (2, 3), 'four'):
    print(item)
else:
    print('all')
total = 0
for pair in ((1, 2), (3, 4)):
    for n in pair:
        total += n
print(total)
