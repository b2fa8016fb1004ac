def f(items, j):
    return items[j + 1]
def g(items, j):
    return items[j + -128], items[j + 127]
row = ['a', 'b', 'c', 'd']
i = 1
print(row[i + 1], row[i + 2], row[i + -1], row[i + -2], row[i + 0])
print(f('xyz', 0), f((1, 2), 0), f(range(9), 3), f({2: 'two'}, 1), f(b'ab', 0))
print(f('xyz', True), f('xyz', False), f('xyz', -2))
print(g(range(300), 128), g({0: 'least', 255: 'most'}, 128))
print(row[i + 128 + -127], row['a' == 'a'], 'abc'[i + 1] == 'c')
try:
    f([1], 0)
except IndexError as e:
    print(repr(e))
try:
    f([1], -3)
except IndexError as e:
    print(repr(e))
try:
    f({1: 1}, 1)
except KeyError as e:
    print(repr(e))
try:
    f({1: 1}, 'a')
except TypeError as e:
    print(repr(e))
try:
    f('abc', 'a')
except TypeError as e:
    print(repr(e))
try:
    f('abc', [1])
except TypeError as e:
    print(repr(e))
try:
    f(None, 0)
except TypeError as e:
    print(repr(e))
try:
    f('abc', 9223372036854775807)
except OverflowError as e:
    print(repr(e))
try:
    f(None, 9223372036854775807)
except OverflowError as e:
    print(repr(e))
try:
    missing[neither + 1]
except NameError as e:
    print(repr(e))
try:
    row[neither + 1]
except NameError as e:
    print(repr(e))
try:
    row['a' + 1]
except TypeError as e:
    print(repr(e))
try:
    'abc'[i + 2]
except IndexError as e:
    print(repr(e))
def h(n):
    if n:
        items = 'abc'
        k = 0
    return items[k + 1]
print(h(1))
h(0)
