a = 'a' * 100
d = {a: 1, a + 'b': 2, '\u00e9' * 50: 3}
print(d['a' * 100], d['a' * 100 + 'b'], d['\u00e9' * 50], ('a' * 99) in d)
del d['a' * 100]
print(len(d), a in d)
