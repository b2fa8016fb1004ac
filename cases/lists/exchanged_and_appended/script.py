# Values of each kind change places, alone and in lists, and go to the ends of lists.
def exchanged(a, b):
    a, b = b, a
    return [a, b]


def fibonacci(n):
    a, b = 0, 1
    while n > 0:
        a, b = b, a + b
        n = n - 1
    return a


def turned(a, b, c):
    a, b, c = c, b, a
    return [a, b, c]


def gathered(values):
    items = []
    for value in values:
        items.append(value)
    return items


print(exchanged(1, 2), exchanged(-1, 9223372036854775807), exchanged(0, 0))
print(exchanged(1, 'x'), exchanged('x', 1), exchanged('x', b'y'))
print(exchanged(True, 0), exchanged(None, (1, 2)), exchanged([], {}))
print(fibonacci(0), fibonacci(1), fibonacci(10), fibonacci(90))
print(turned(1, 2, 3), turned('a', 2, None))

items = [3, 'two', None]
items[0], items[2] = items[2], items[0]
items[0], items[1] = items[1], items[0]
print(items)

print(gathered((1, -1, True, None, 'a', 'a longer text', b'b', (), [], {}, 9223372036854775807)))
rows = [[]]
rows[0].append(rows)
rows.append(7)
print(rows)
try:
    {}.append(1)
except AttributeError:
    print('no such method of a dict')
try:
    [].append()
except TypeError:
    print('no argument')
try:
    (7).append(1)
except AttributeError:
    print('nor of an int')

print(list(range(9223372036854775805, 9223372036854775807)))
for n in range(3, 3):
    print('none')
total = 0
for n in range(9223372036854775804, 9223372036854775807):
    total = total + (n - 9223372036854775803)
for n in range(5, 0, -2):
    total = total * 10 + n
for n in range(0, 10, 4):
    total = total * 10 + n
print(total)
