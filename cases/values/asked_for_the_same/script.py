def f():
    return 1


def asked(value):
    told = ''
    if value is None:
        told += 'N'
    if value is not None:
        told += 'n'
    if value is True:
        told += 'T'
    if value is not True:
        told += 't'
    if value is False:
        told += 'F'
    if value is not False:
        told += 'f'
    return told, value is None, value is not True


def odd_until(items, last):
    seen = []
    for item in items:
        if item % 2 == 0:
            continue
        if item > last:
            break
        try:
            if item == 5:
                continue
            if item == 9:
                break
            seen.append(item)
        finally:
            seen.append(-item)
    return seen


values = [None, True, False, 0, 1, 'a', 'abcdefghijklmnop', b'x', b'abcdefghijklmnopq', len, f, range(3), (), (1, 2), ValueError, [], {}, [1], {1: 2}]
taken = []
for value in values:
    taken.append(value)
    taken[len(taken) - 1] = value
    print(asked(value), asked(taken[-1]))
print(len(taken))
print(odd_until(range(20), 7), odd_until([1, 2, 3, 9, 11], 100))
steps = {}
for k in range(0, 6400, 64):
    steps[k] = -k
    steps[str(k)] = k
    steps['key number ' + str(k)] = k + 1
total = 0
for k in range(0, 6400, 64):
    total += steps[k] + 2 * steps[str(k)] - steps['key number ' + str(k)]
print(total, len(steps), 32 in steps, '64' in steps, 'key number 65' in steps)
