def seconds():
    return 24 * 60 * 60
def line():
    return '=' * 20 + '>' + '' * 9000000000000000000
def least():
    return -9223372036854775807 - 1
row = ['a', 'b', 'c', 'd']
i = 3
print(seconds(), -seconds(), line(), least(), ~0, -(-5), +7, - - 3)
print(row[-1], row[-4], row[i - 1], row[i - 3], row[i - 128 + 127], row[2 - 1], row[i - -0])
print(2 ** 10, 2 ** 62, 7 // -2, -7 % 3, 6 & 3, 6 | 3, 6 ^ 3, 1 << 15, -1 >> 70, 100 - 200 * 300)
print('ab' * 3, 3 * 'ab', 'ab' * 0, 'ab' * -1, 'a' + 'b' * 2 + 'c', ('a' + 'b') * 2)
print(len('ab' * 32), len('ab' * 33), len('a' * 64 + 'b'), len(1000 * 'ab'), 'é' * 3)
print(b'ab' * 2, b'a' + b'b', True + 1, -True, not 1, not -1 + 1, (1, 2) * 2, [1] * (1 + 1))
print(-1 if -1 else 0, 0 if 1 - 1 else 1, 5 if i < 2 + 2 else 6, i + (2 + 3), i - (2 - 3), (1 + 1) * i)
while i - 2 + 1 > 3 - 3:
    i -= 1 + 0
print(i)
row[0 - 1] = row[1 - 1]
row[-2] += 'x' + 'y'
print(row)
def f():
    return 1 // 0
def g():
    return 9223372036854775807 + 1
def h():
    return 'a' + 1
def k():
    return -'a'
def far(items, j):
    return items[j - 9223372036854775807]
for call in [f, g, h, k]:
    try:
        call()
    except ArithmeticError as e:
        print(repr(e))
    except TypeError as e:
        print(repr(e))
try:
    print('a' * (2 ** 40))
except OverflowError as e:
    print(repr(e))
try:
    far([], -2)
except OverflowError as e:
    print(repr(e))
try:
    row[i - 5]
except IndexError as e:
    print(repr(e))
try:
    {1: 1}[i - 7]
except KeyError as e:
    print(repr(e))
'abc'[missing - 1]
