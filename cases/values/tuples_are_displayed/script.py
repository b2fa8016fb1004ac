def say(x):
    print('item', x)
    return x
print((), (1,), (1, 2), (1, 2,), ((1), (2,), ()), (1, ('a', (None, True))))
print((
    1,
    2
), len((1, 2, 3)), len(()))
t = (say(1), say(2), (say(3), say(4)), say(5))
print(t, len(t), t[2][1], t[-1])
(say('a'), say('b'))
def pair(a, b):
    c = (a, b)
    return (b, a, c)
print(pair((1, 2), (3,)), pair((), (pair(1, 2), 0)))
def fib(n):
    return (n,) if n < 2 else (fib(n - 1)[0] + fib(n - 2)[0], n)
print(fib(10))
def both(n):
    s = 0
    for i in range(n):
        p = (i, (i * i, -i), 's' * i)
        s += p[0] + p[1][0] + p[1][1] + len(p[2])
    return (s, p)
print(both(5))
n = 0
while (n, 7)[0] < 3:
    n = (n + 1, 'next')[0]
print(n)
for x in (1, 'two', (3, 4), None, ()):
    print(x)
if ():
    print('no')
elif (0,):
    print('some')
print(not (), not (0,), () or 'none', (1,) and (2,), (1, 2) if (n, n) else ())
print((1, 2) == (1, 2), (1, 2) == (2, 1), (1,) == (1, 1), 2 in (1, 2), 3 not in (1, 2), (1, 2) + (3,), ((0,) * 3, 0))
def early():
    return (say(1), say(2) // 0, say(3))
try:
    early()
except (TypeError, ZeroDivisionError):
    print('divided')
def unbound():
    q = (later, 1)
    later = 2
try:
    unbound()
except UnboundLocalError as e:
    print((e,), (1, e)[0])
try:
    print((1, missing))
except NameError as e:
    print(e)
deep = ()
for i in range(199):
    deep = (deep,)
try:
    deep = (1, deep)
except OverflowError as e:
    print(e, len(deep))
wide = 0
made = 0
try:
    for i in range(20):
        wide = (wide, wide)
        made += 1
except OverflowError as e:
    print(e, made, len(wide))
print(((((((((1, 2), 3), 4), 5), 6), 7), 8), 9), (1, 2, 3, 4, 5, 6, 7, 8, 9, 10, 11, 12, 13, 14, 15, 16, 17, 18, 19, 20))
