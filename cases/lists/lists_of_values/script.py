print(list('ab'), list(b'ab'), list(range(3)), list((1, 2)), list([1, 2]), list({1: 2, 'k': 3}), list(''))
a = [1]
b = list(a)
b.append(2)
print(a, b, tuple(b), tuple({'x': 1}), tuple([]))
print(bytes([65, 66, True]), len([1, 2]), len([]), len({1: 2}), list)
