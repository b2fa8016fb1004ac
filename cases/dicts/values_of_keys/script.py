d = {'a': 1, 7: 'b', -1: None}
print(d['a'], d[7], d[-1], d[3 + 4], len(d), len({}))
try:
    d['b']
except KeyError as e:
    print(e, repr(e))
try:
    d[0]
except LookupError as e:
    print(e, repr(e))
d[0] = 'n'; d['b'] = d
print(d)
