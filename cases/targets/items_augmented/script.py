a = [1, 2]; d = {'k': 'x'}
a[0] += 5; a[-1] *= 3; d['k'] += 'y'; a[0] -= 1; a[1] //= 4
print(a, d)
def f():
    print('object')
    return a
def g():
    print('index')
    return 0
f()[g()] += len('abc')
print(a)
d['l'] = [1]
e = d['l']
d['l'] += (2,)
print(d, e)
